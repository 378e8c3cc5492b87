#!/usr/bin/env python3
"""Tries tools/spread --slurm on a Slurm of one node, this machine: tools/cases/slurm_node.py [--program PROGRAM]

It is no part of the gate. It wants root, on Debian or Ubuntu, as in a container, and these packages:

  apt install --no-install-recommends slurmctld slurmd slurm-client munge

munged, slurmctld and slurmd run in a folder of their own, with a key, ports and files of their own, and are ended at last: nothing in /etc is read or
changed. PROGRAM answers the calls, `./dypdl` if nothing is said. A batch is sent and compared with what PROGRAM prints of it; it is interrupted and
goes on; a task is cancelled and tried anew; words that sbatch refuses end with one line.

The status is 0 where all agree, 1 where something differs or is missing, and 2 where the words are not right."""

import os
import secrets
import shutil
import signal
import socket
import subprocess
import sys
import tempfile
import time

sys.dont_write_bytecode = True
sys.path.insert(0, os.path.dirname(os.path.dirname(os.path.realpath(__file__))))

from reading import shell  # noqa: E402

SPREAD = os.path.join(shell.TOP, "tools", "spread")
NEEDED = {"munged": "munge", "slurmctld": "slurmctld", "slurmd": "slurmd", "sbatch": "slurm-client"}
# An array may have three tasks: so these five calls are two arrays.
CONFIG = """ClusterName=one
SlurmctldHost={host}(127.0.0.1)
SlurmUser=root
AuthType=auth/munge
AuthInfo=socket={room}/munge.socket
CredType=cred/munge
SlurmctldPort={ports[0]}
SlurmdPort={ports[1]}
StateSaveLocation={room}/state
SlurmdSpoolDir={room}/spool
SlurmctldPidFile={room}/slurmctld.pid
SlurmdPidFile={room}/slurmd.pid
ProctrackType=proctrack/linuxproc
TaskPlugin=task/none
JobAcctGatherType=jobacct_gather/none
SelectType=select/cons_tres
SelectTypeParameters=CR_CPU
MpiDefault=none
ReturnToService=2
MaxArraySize=4
NodeName={host} NodeAddr=127.0.0.1 CPUs={processors} State=UNKNOWN
PartitionName=all Nodes={host} Default=YES MaxTime=INFINITE State=UP
"""
BATCH = """# five calls
solve models/tour/time_windows.yaml models/tour/four_customers.yaml --prune off
show models/deliveries/drafts/domain_1.yaml models/deliveries/drafts/problem_1.yaml

replay models/deliveries/domain.yaml models/deliveries/problem.yaml models/deliveries/lists/no_way_home.txt
gen tour 6 4
solve models/deliveries/domain.yaml models/deliveries/problem.yaml --certificate on
"""
# In place of the solver: a search waits first, as long as a file says.
SLOW = """#!/bin/sh
[ "$1" != solve ] || sleep "$(cat '{room}/seconds')"
exec '{program}' "$@"
"""


# In place of sbatch: it takes no second array at first, as where a user may have so many tasks and no more.
FULL = """#!/bin/sh
count=$(cat '{room}/count' 2>/dev/null || echo 0)
echo $((count + 1)) >'{room}/count'
[ "$count" != 1 ] || {{ echo 'sbatch: error: QOSMaxSubmitJobPerUserLimit' >&2; exit 1; }}
exec {sbatch} "$@"
"""


class Node:
    """A Slurm of one node in a folder."""

    def __init__(self, room):
        self.room, self.children = room, []
        self.conf = os.path.join(room, "slurm.conf")
        os.environ["SLURM_CONF"] = self.conf

    def start(self):
        host = socket.gethostname().split(".")[0]
        for name in ("state", "spool"):
            os.mkdir(os.path.join(self.room, name))
        with open(self.conf, "w", encoding="utf-8") as file:
            file.write(CONFIG.format(host=host, room=self.room, ports=free_ports(2), processors=len(os.sched_getaffinity(0))))
        key = os.path.join(self.room, "munge.key")
        with open(os.open(key, os.O_WRONLY | os.O_CREAT, 0o600), "wb") as file:
            file.write(secrets.token_bytes(128))
        paths = [f"--{kind}-file={self.room}/munge.{kind}" for kind in ("log", "pid", "seed")]
        self.child("munged", "--foreground", "--force", f"--key-file={key}", f"--socket={self.room}/munge.socket", *paths)
        self.wait(lambda: os.path.exists(os.path.join(self.room, "munge.socket")), "munged")
        self.child("slurmctld", "-D", "-c")
        self.child("slurmd", "-D", "-N", host)
        self.wait(lambda: b"idle" in run(["sinfo", "--noheader", "--format=%t"]).stdout, "the node")

    def child(self, *words):
        with open(os.path.join(self.room, f"{words[0]}.said"), "wb") as said:
            self.children.append(subprocess.Popen(words, stdin=subprocess.DEVNULL, stdout=said, stderr=said, start_new_session=True))

    def wait(self, ready, what):
        for _ in range(300):
            if ready():
                return
            time.sleep(0.2)
        for name in sorted(os.listdir(self.room)):
            if name.endswith(".said"):
                with open(os.path.join(self.room, name), encoding="utf-8", errors="replace") as file:
                    print(f"--- {name}\n{file.read()[-2000:]}")
        raise shell.Stop(f"{what} is not ready after a minute")

    def stop(self):
        for child in reversed(self.children):
            child.send_signal(signal.SIGTERM)
            try:
                child.wait(timeout=20)
            except subprocess.TimeoutExpired:
                child.kill()


def free_ports(count):
    held = [socket.create_server(("127.0.0.1", 0)) for _ in range(count)]
    ports = [one.getsockname()[1] for one in held]
    for one in held:
        one.close()
    return ports


def run(words):
    return subprocess.run(words, capture_output=True, stdin=subprocess.DEVNULL, check=False)


def said(text):
    """The lines on standard error but those of an unproved build."""
    return [line for line in text.splitlines() if not line.startswith(b"dypdl: ")]


class Tries:
    """What is tried, each with what should come of it."""

    def __init__(self, room, program):
        self.room, self.program, self.bad, self.tried = room, program, 0, 0
        os.mkdir(room)
        self.batch, self.slow = os.path.join(room, "calls.txt"), os.path.join(room, "slow")
        self.results = f"{self.batch}.results"
        with open(self.batch, "w", encoding="utf-8") as file:
            file.write(BATCH)
        with open(self.slow, "w", encoding="utf-8") as file:
            file.write(SLOW.format(room=room, program=program))
        os.chmod(self.slow, 0o755)
        self.seconds(0)

    def seconds(self, number):
        with open(os.path.join(self.room, "seconds"), "w", encoding="utf-8") as file:
            file.write(f"{number}\n")

    def words(self, *more):
        return [sys.executable, SPREAD, self.batch, "--slurm", "--program", self.slow, *more]

    def same(self, what, wanted, got):
        self.tried += 1
        self.bad += wanted != got
        print(f"{what}: as it should be" if wanted == got else f"--- {what}\nwanted: {str(wanted)[:2000]}\ngot:    {str(got)[:2000]}", flush=True)

    def printed(self):
        with open(os.path.join(self.results, "results.txt"), "rb") as file:
            return file.read()

    def expected(self):
        out = b""
        for line in BATCH.splitlines():
            if line and not line.startswith("#"):
                done = run([self.program, *line.split()])
                out += f"== {line}\n".encode() + done.stdout + f"status {done.returncode}\n".encode()
        return out

    def queue(self, *more):
        return run(["squeue", "--noheader", "--array", "--format=%F_%K", *more]).stdout.split()

    def running(self):
        return self.queue("--states=R")

    def until(self, ready):
        for _ in range(300):
            if ready():
                return
            time.sleep(0.1)

    def all_of_them(self):
        wanted = self.expected()
        done = run(self.words())
        self.same("a batch", (0, wanted), (done.returncode, self.printed()))
        self.same("its table", (6, []), (done.stdout.count(b"\n"), said(done.stderr)))
        with open(os.path.join(self.results, "slurm", "arrays"), encoding="utf-8") as file:
            self.same("two arrays", 2, len(file.readlines()))
        done = run(self.words())
        self.same("the same once more", True, said(done.stderr)[0].startswith(b"spread: 5 of 5 calls have their results"))
        self.later(wanted)
        self.interrupted(wanted)
        self.cancelled(wanted)
        done = run(self.words("--anew", "--sbatch=--partition=nowhere"))
        self.same("words that sbatch refuses", (2, 1, True), (done.returncode, len(said(done.stderr)), b"sbatch took nothing" in done.stderr))

    def later(self, wanted):
        place = os.path.join(self.room, "bin")
        os.mkdir(place)
        with open(os.path.join(place, "sbatch"), "w", encoding="utf-8") as file:
            file.write(FULL.format(room=self.room, sbatch=shutil.which("sbatch")))
        os.chmod(os.path.join(place, "sbatch"), 0o755)
        env = {**os.environ, "PATH": f"{place}:{os.environ['PATH']}"}
        done = subprocess.run(self.words("--anew"), capture_output=True, env=env, check=False)
        told = [b"spread: sbatch took 3 of 5 calls, and the others later: sbatch: error: QOSMaxSubmitJobPerUserLimit"]
        self.same("an array that is taken later", (0, wanted, told), (done.returncode, self.printed(), said(done.stderr)))

    def interrupted(self, wanted):
        self.seconds(8)
        child = subprocess.Popen(self.words("--anew"), stdout=subprocess.PIPE, stderr=subprocess.PIPE)
        self.until(lambda: len(self.queue()) > 1)
        time.sleep(2)
        child.send_signal(signal.SIGINT)
        told = child.communicate()[1]
        self.same("an interrupted run", (130, True, True), (child.returncode, b"stays in the queue" in told, len(self.queue()) > 0))
        before = set(self.queue())
        done = run(self.words())
        self.same("it goes on", (0, wanted, True), (done.returncode, self.printed(), b"of an earlier run" in done.stderr))
        self.same("without more tasks", True, set(self.queue()) <= before)

    def cancelled(self, wanted):
        self.seconds(5)
        child = subprocess.Popen(self.words("--anew"), stdout=subprocess.PIPE, stderr=subprocess.PIPE)
        self.until(self.running)
        run(["scancel", self.running()[0].decode()])
        self.seconds(0)
        told = said(child.communicate()[1])
        self.same("a task that was cancelled", (0, wanted), (child.returncode, self.printed()))
        self.same("what is told of it", (True, b"spread: 1 call is tried anew"), (b"left no result" in told[0] and b"CANCELLED" in told[0] or told[0], told[-1]))


def main(words):
    parser = shell.Words(__doc__, prog="slurm_node")
    parser.add_argument("--program", metavar="PROGRAM", default=os.path.join(shell.TOP, "dypdl"))
    program = shell.program_of(parser.parse_args(words).program)
    missing = [package for name, package in NEEDED.items() if not shutil.which(name)]
    if missing or os.getuid():
        shell.tell("slurm_node", f"it wants root, and these packages: apt install --no-install-recommends {' '.join(NEEDED.values())}")
        return 1
    os.chdir(shell.TOP)
    with tempfile.TemporaryDirectory() as room:
        os.chmod(room, 0o755)
        node = Node(room)
        try:
            node.start()
            tries = Tries(os.path.join(room, "a folder"), program)
            tries.all_of_them()
        finally:
            node.stop()
    print(f"{tries.tried - tries.bad} of {tries.tried} agree")
    return int(tries.bad > 0)


if __name__ == "__main__":
    shell.run("slurm_node", main)
