"""Ways to run calls of the solver: on the processors of this machine, over machines by GNU parallel, over those of a cluster by Slurm.

A way has `ready(told)`, which sees that the program runs there, and `run(calls, folder, told)`. That runs each call once, puts what it printed into the folder, and tells `told.ended(call, end)` of each as it
ends, also of those that brought no answer."""

from __future__ import annotations

import ctypes
import json
import os
import pwd
import re
import shlex
import shutil
import signal
import subprocess
import time
from concurrent.futures import ThreadPoolExecutor

from . import shell
from .calls import End

PAUSE = 0.02
SSH = "ssh -o BatchMode=yes -o ConnectTimeout=10 -o ServerAliveInterval=20 -o ServerAliveCountMax=3"


def said_last(path):
    """The last line of a file, behind a colon; nothing where there is none."""
    try:
        with open(path, "rb") as file:
            file.seek(max(0, os.path.getsize(path) - 4000))
            rows = [row.strip() for row in file.read().decode("utf-8", "replace").splitlines() if row.strip()]
        return f": {shell.visible(rows[-1])}" if rows else ""
    except OSError:
        return ""


class Missing(shell.Stop):
    """An end because a program, or all machines, are not there."""


def first_line(text):
    rows = [row.strip() for row in text.decode("utf-8", "replace").splitlines() if row.strip()]
    return shell.visible(rows[0]) if rows else "nothing was said"


def try_program(program):
    """Runs a small call, which builds the program where the sources have none yet."""
    shell.program_of(program)
    try:
        done = subprocess.run([program, "gen", "path", "1", "1"], stdin=subprocess.DEVNULL, stdout=subprocess.PIPE, check=False)
    except OSError as error:
        raise shell.Stop(f"{program}: {error.strerror}: it is no program that can be run") from None
    if b"\nverdict " not in done.stdout:
        raise Missing(f"{program} does not run here")


def processors():
    return len(os.sched_getaffinity(0))


class Here:
    """The processors of this machine."""

    def __init__(self, program, jobs):
        self.program, self.jobs = program, jobs or processors()

    def ready(self, _):
        try_program(self.program)

    def run(self, calls, folder, told):
        open_calls, running = list(calls), []
        try:
            while open_calls or running:
                while open_calls and len(running) < self.jobs:
                    running.append(self.start(open_calls.pop(0), folder))
                told.runs(len(running))
                time.sleep(PAUSE)
                for call, child, began in list(running):
                    if child.poll() is not None:
                        running.remove((call, child, began))
                        self.end(call, child, began, folder, told)
        finally:
            for _, child, _ in running:
                end_group(child)

    def start(self, call, folder):
        paths = [os.path.join(folder.room, f"{call.name}.{kind}") for kind in ("out", "err")]
        with open(paths[0], "wb") as out, open(paths[1], "wb") as err:
            try:
                child = begin([self.program, *call.words], stdout=out, stderr=err)
            except OSError as error:
                err.write(f"{error.strerror}\n".encode())
                child = NeverBegun()
        return call, child, time.monotonic()

    def end(self, call, child, began, folder, told):
        status = child.returncode if child.returncode >= 0 else 128 - child.returncode
        end = End(status, time.monotonic() - began, "here")
        paths = [os.path.join(folder.room, f"{call.name}.{kind}") for kind in ("out", "err")]
        folder.put(call, *paths, end)
        told.ended(call, end)


class NeverBegun:
    """In place of a process that could not be started."""

    returncode = 126

    def poll(self):
        return self.returncode


def begin(words, **more):
    """Starts a process in a group of its own, which is asked to end where this process is no more."""
    return subprocess.Popen(words, stdin=subprocess.DEVNULL, start_new_session=True, preexec_fn=lambda: ctypes.CDLL(None).prctl(1, signal.SIGTERM), **more)


def end_group(child):
    """Ends a process and those that it started, and waits for it."""
    for number in (signal.SIGTERM, signal.SIGTERM, signal.SIGKILL):
        try:
            os.killpg(child.pid, number)
            child.wait(timeout=3)
            return
        except subprocess.TimeoutExpired:
            pass
        except (ProcessLookupError, AttributeError):
            return


# ---- machines by ssh

class Host:
    """A machine: its name for ssh, or `:` for this one, and how many calls it runs at a time."""

    def __init__(self, name, jobs):
        self.name, self.jobs, self.ran, self.failed = name, jobs, 0, 0


def hosts_in(path):
    """The machines that a file names, one a line: `HOST`, `USER@HOST` or `:`, with `N/` before it where N calls run there at a time."""
    found = []
    for place, line in enumerate(shell.bytes_of(path).decode("utf-8", "replace").splitlines(), 1):
        line = line.split("#", 1)[0].strip()
        row = re.fullmatch(r"(?:([0-9]{1,4})/)?(:|(?:[\w.-]+@)?\w[\w.-]*)", line, re.ASCII)
        if line and (not row or row.group(1) and int(row.group(1)) == 0):
            raise shell.Stop(f"{path}: line {place} is no machine: `{shell.visible(line)}`; a line is HOST, USER@HOST or ':', with N/ before it where N calls run there at a time")
        if line:
            found.append(Host(row.group(2), row.group(1) and int(row.group(1))))
    if not found:
        raise shell.Stop(f"{path}: no machine stands in it")
    if len({host.name for host in found}) < len(found):
        raise shell.Stop(f"{path}: a machine stands in it twice")
    return found


class Hosts:
    """Machines that answer to ssh, by GNU parallel. They have the program and the files under the same paths, or under those that are named."""

    def __init__(self, path, program, place, jobs):
        self.hosts, self.program, self.place, self.jobs = hosts_in(path), program, place, jobs
        self.ssh = os.environ.get("PARALLEL_SSH") or SSH
        self.parallel = self.found()

    @staticmethod
    def found():
        """GNU parallel. Another program of that name is in Debian's package `moreutils`."""
        path = shutil.which("parallel")
        said = b""
        if path:
            said = subprocess.run([path, "--version"], capture_output=True, stdin=subprocess.DEVNULL, check=False).stdout
        if not said.startswith(b"GNU parallel"):
            raise Missing("--hosts needs GNU parallel, which is not on the path: `apt install parallel` on Debian and Ubuntu; without --hosts the calls run here")
        return path

    def ready(self, told):
        """Asks each machine whether the program runs there, in the folder. Those that do not answer are left out."""
        with ThreadPoolExecutor(16) as pool:
            answers = list(pool.map(self.ask, self.hosts))
        for host, why in zip(list(self.hosts), answers):
            if why:
                self.hosts.remove(host)
                told.line(f"{host.name} is left out: {why}")
        if not self.hosts:
            raise Missing("no machine is left that the calls could run on")

    def ask(self, host):
        """Why a machine cannot be used; None where it can. Sets how many calls it runs at a time, if nothing is said: one for each processor."""
        script = f"cd -- {shlex.quote(self.place)} && {shlex.quote(self.program)} gen path 1 1 && nproc"
        words = ["sh", "-c", script] if host.name == ":" else [*shlex.split(self.ssh), host.name, f"sh -c {shlex.quote(script)}"]
        try:
            done = subprocess.run(words, capture_output=True, stdin=subprocess.DEVNULL, timeout=60, check=False)
        except subprocess.TimeoutExpired:
            return "it did not answer within 60 s"
        except OSError as error:
            return f"{words[0]}: {error.strerror}"
        rows = done.stdout.split()
        if done.returncode or len(rows) < 2 or b"verdict" not in rows or not rows[-1].isdigit():
            return first_line(done.stderr) if done.returncode else "the program does not run there"
        host.jobs = self.jobs or host.jobs or int(rows[-1])
        return None

    def run(self, calls, folder, told):
        for host in self.hosts:
            host.ran = host.failed = 0
        room = os.path.join(folder.room, "parallel")
        shutil.rmtree(room, ignore_errors=True)
        os.mkdir(room)
        log = os.path.join(room, "log")
        told.runs(min(len(calls), sum(host.jobs for host in self.hosts)))
        child = self.start(calls, room, log)
        try:
            ended, over = 0, False
            while not over:
                over = child.poll() is not None
                rows = self.rows(log)
                for row in rows[ended:]:
                    self.end(calls[int(row[0]) - 1], row, room, folder, told)
                ended = len(rows)
                told.runs(min(len(calls) - ended, sum(host.jobs for host in self.hosts)))
                time.sleep(0 if over else 10 * PAUSE)
        finally:
            end_group(child)
        self.tell_of_lost(calls, rows, room, told)
        self.drop_bad(told)

    def start(self, calls, room, log):
        """Starts GNU parallel on the calls, each a line of a shell."""
        with open(os.path.join(room, "lines"), "w", encoding="utf-8", errors="surrogateescape") as file:
            file.writelines(self.line_of(call) + "\n" for call in calls)
        with open(os.path.join(room, "hosts"), "w", encoding="utf-8") as file:
            file.writelines(f"{host.jobs}/{host.name}\n" for host in self.hosts)
        words = [self.parallel, "--plain", "--will-cite", "--ssh", self.ssh, "--sshloginfile", os.path.join(room, "hosts"), "--jobs", "100%", "--sshdelay", "0.05",
                 "--joblog", log, "--results", os.path.join(room, "{#}"), "--arg-file", os.path.join(room, "lines")]
        with open(os.path.join(room, "said"), "wb") as said:
            return begin(words, stdout=subprocess.DEVNULL, stderr=said)

    def line_of(self, call):
        """The line that runs a call. Behind what it prints stands its status, on a line of its own."""
        words = " ".join(map(shlex.quote, (self.program, *call.words)))
        script = f"cd -- {shlex.quote(self.place)} && {words} </dev/null; printf '\\nstatus %s\\n' $?"
        return f"sh -c {shlex.quote(script)}"

    @staticmethod
    def rows(log):
        """The whole lines of a log of GNU parallel: number, host, begin, seconds, sent, received, status, signal, command."""
        try:
            with open(log, encoding="utf-8", errors="replace") as file:
                lines = file.read().split("\n")[1:-1]
        except FileNotFoundError:
            return []
        return [row for row in (line.split("\t") for line in lines) if len(row) >= 9 and row[0].isdigit()]

    def end(self, call, row, room, folder, told):
        printed, said = (os.path.join(room, row[0] + kind) for kind in ("", ".err"))
        host = next((host for host in self.hosts if host.name == row[1]), None)
        status = cut_status(printed)
        why = "" if status is not None else f"the line to it broke{said_last(said)}"
        end = End(status, float(row[3]), "here" if row[1] == ":" else row[1], why)
        if host:
            host.ran, host.failed = host.ran + 1, host.failed + (not end.answered())
        folder.put(call, printed, said, end)
        told.ended(call, end)

    def tell_of_lost(self, calls, rows, room, told):
        """Calls that GNU parallel has not even tried: it ended before."""
        tried = {int(row[0]) for row in rows}
        for number, call in enumerate(calls, 1):
            if number not in tried:
                told.ended(call, End(None, 0, "-", f"parallel did not run it{said_last(os.path.join(room, 'said'))}"))

    def drop_bad(self, told):
        """Leaves out machines where nothing was answered, if others are left."""
        bad = [host for host in self.hosts if host.ran and host.failed == host.ran]
        if len(bad) < len(self.hosts):
            for host in bad:
                self.hosts.remove(host)
                told.line(f"{host.name} is left out: none of its {host.ran} calls was answered")


def cut_status(path):
    """Takes the line with the status off the end of a file; None where it has none."""
    try:
        with open(path, "rb+") as file:
            size = file.seek(0, os.SEEK_END)
            file.seek(max(0, size - 20))
            found = re.search(rb"\nstatus ([0-9]{1,3})\n\Z", file.read())
            if found:
                file.truncate(size - len(found.group(0)))
            return found and int(found.group(1))
    except OSError:
        return None


# ---- a cluster with Slurm

TASK = """#!/bin/sh
# Written by tools/spread: task I of the array runs the call in line I of the list $1, and writes what it prints into the folder $2.
begin() {
    name="$2/$1-$SLURM_ARRAY_JOB_ID"
    shift 2
    began=$(date +%s)
    "$@" </dev/null >"$name.out" 2>"$name.err"
    printf 'status %s seconds %s on %s\\n' "$?" "$(($(date +%s) - began))" "$(uname -n)" >"$name.new" && mv "$name.new" "$name.end"
}
cd -- "$3" || exit 1
line="$(sed -n "${SLURM_ARRAY_TASK_ID}p" "$1")"
eval "begin $line"
"""


class Slurm:
    """The machines of a cluster, which see the folder of results as this one does: job arrays, a task for each call. What is in the queue stays there when
    this process ends, and is waited for by the next one."""

    PAUSE, GRACE, AGAIN, SILENCE = 1.0, 15.0, 20.0, 300.0

    def __init__(self, program, place, jobs, options):
        self.program, self.place, self.jobs, self.options = program, place, jobs, options
        for name in ("sbatch", "squeue", "scontrol"):
            if not shutil.which(name):
                raise Missing(f"--slurm needs Slurm's '{name}', which is not on the path: run it where jobs are sent from; without --slurm the calls run here")

    def ready(self, _):
        try_program(self.program)

    def run(self, calls, folder, told):
        self.room = folder.file("slurm")
        os.makedirs(self.room, exist_ok=True)
        self.arrays = self.kept()
        queued = self.queued() or {}
        new = [call for call in calls if self.name_of(call) not in queued and not self.ends_of(call)]
        if len(new) < len(calls):
            told.line(f"{len(calls) - len(new)} calls of an earlier run are in the queue, or ended since")
        try:
            self.wait({self.name_of(call): call for call in calls if call not in new}, new, folder, told)
        except KeyboardInterrupt:
            numbers = " ".join(sorted({number for number, _ in (self.queued() or {}).values()}))
            if numbers:
                told.line(f"what was sent stays in the queue: the same command waits for it again, and `scancel {numbers}` takes it out")
            raise

    @staticmethod
    def name_of(call):
        return f"{call.name}-{call.sum[:16]}"

    def kept(self):
        """The arrays that were sent into this folder: each one's number with the names of its calls."""
        try:
            with open(os.path.join(self.room, "arrays"), encoding="utf-8") as file:
                return {row["array"]: row["calls"] for row in map(json.loads, file)}
        except (FileNotFoundError, ValueError, KeyError, TypeError):
            return {}

    def send(self, calls):
        """Sends arrays, none longer than Slurm takes. The calls that it did not take, and why."""
        most = self.longest()
        limit = f"%{max(1, self.jobs // -(-len(calls) // most))}" if self.jobs else ""
        task = os.path.join(self.room, "task")
        with open(task, "w", encoding="utf-8") as file:
            file.write(TASK)
        for start in range(0, len(calls), most):
            part = calls[start : start + most]
            path = os.path.join(self.room, f"list-{len(self.arrays) + 1}")
            with open(path, "w", encoding="utf-8", errors="surrogateescape") as file:
                file.writelines(f"{' '.join(map(shlex.quote, (self.name_of(call), self.room, self.program, *call.words)))}\n" for call in part)
            log = f"{self.room.replace('%', '%%')}/log-%A_%a"
            words = ["sbatch", "--parsable", "--job-name=spread", f"--array=1-{len(part)}{limit}", f"--output={log}", *self.options, task, path, self.room, self.place]
            done = subprocess.run(words, capture_output=True, stdin=subprocess.DEVNULL, check=False)
            number = done.stdout.decode("utf-8", "replace").strip().split(";")[0]
            if done.returncode or not number.isdigit():
                return calls[start:], first_line(done.stderr)
            self.arrays[number] = [self.name_of(call) for call in part]
            with open(os.path.join(self.room, "arrays"), "a", encoding="utf-8") as file:
                file.write(json.dumps({"array": number, "calls": self.arrays[number]}) + "\n")
        return [], ""

    @staticmethod
    def longest():
        done = subprocess.run(["scontrol", "show", "config"], capture_output=True, stdin=subprocess.DEVNULL, check=False)
        found = re.search(rb"MaxArraySize\s*=\s*([0-9]+)", done.stdout)
        return max(1, int(found.group(1)) - 1) if found else 1000

    def queued(self):
        """The calls that wait or run, each with the number of its array and its state; None where Slurm does not say."""
        user = pwd.getpwuid(os.getuid()).pw_name
        done = subprocess.run(["squeue", "--noheader", "--array", f"--user={user}", "--format=%F %K %t"], capture_output=True, stdin=subprocess.DEVNULL, check=False)
        if done.returncode:
            return None
        found = {}
        for number, task, state in (row.split() for row in done.stdout.decode("utf-8", "replace").splitlines() if len(row.split()) == 3):
            names = self.arrays.get(number, [])
            if task.isdigit() and 1 <= int(task) <= len(names):
                found[names[int(task) - 1]] = (number, state)
        return found

    def ends_of(self, call):
        """The files of a call that ended, without their endings."""
        start = self.name_of(call) + "-"
        return [os.path.join(self.room, name[:-4]) for name in sorted(os.listdir(self.room)) if name.startswith(start) and name.endswith(".end")]

    def wait(self, waits, unsent, folder, told):
        """Sends the calls, and waits until each has ended, or is no more in the queue and left nothing. What Slurm does not take yet is sent later."""
        gone, heard, again = {}, time.monotonic(), 0.0
        while waits or unsent:
            if unsent and time.monotonic() >= again:
                unsent, again = self.send_more(waits, unsent, told), time.monotonic() + self.AGAIN
            queued, now = self.queued(), time.monotonic()
            if queued is not None:
                heard = now
                told.runs(sum(state in ("R", "CG") for name, (_, state) in queued.items() if name in waits))
            elif now - heard > self.SILENCE:
                raise shell.Stop("squeue has not answered for five minutes; what was sent stays in the queue, and the same command waits for it again")
            there = {name.rsplit("-", 1)[0] for name in os.listdir(self.room) if name.endswith(".end")}
            for name, call in list(waits.items()):
                if name in there:
                    self.end(call, folder, told)
                    del waits[name]
                elif queued is None or name in queued:
                    gone.pop(name, None)
                elif now - gone.setdefault(name, now) > self.GRACE:
                    self.lose(call, folder, told)
                    del waits[name]
            time.sleep(self.PAUSE if waits or unsent else 0)

    def send_more(self, waits, unsent, told):
        """Sends calls, and adds those that were taken to those that are waited for. The others."""
        left, why = self.send(unsent)
        if left and len(left) == len(unsent) and not waits:
            raise shell.Stop(f"sbatch took nothing: {why}")
        if left:
            told.line(f"sbatch took {len(unsent) - len(left)} of {len(unsent)} calls, and the others later: {why}")
        waits.update((self.name_of(call), call) for call in unsent if call not in left)
        return left

    def end(self, call, folder, told):
        path = self.ends_of(call)[-1]
        with open(path + ".end", encoding="utf-8", errors="replace") as file:
            found = re.fullmatch(r"status ([0-9]+) seconds ([0-9]+) on (.*)\n", file.read())
        end = End(int(found.group(1)), float(found.group(2)), found.group(3)) if found else End(None, 0, "-", "its last line is not whole")
        folder.put(call, path + ".out", path + ".err", end)
        os.unlink(path + ".end")
        told.ended(call, end)

    def lose(self, call, folder, told):
        """Tells of a call that left the queue without a result, with what Slurm says of its task."""
        name = self.name_of(call)
        number, names = next((number, names) for number, names in reversed(list(self.arrays.items())) if name in names)
        task = f"{number}_{names.index(name) + 1}"
        done = subprocess.run(["scontrol", "show", "job", "-o", task], capture_output=True, stdin=subprocess.DEVNULL, check=False)
        found = re.search(rb"JobState=(\w+)", done.stdout)
        state = f", state {found.group(1).decode()}" if found else ""
        end = End(None, 0, "-", f"task {task} left no result{state}{said_last(os.path.join(self.room, f'log-{task}'))}")
        path = os.path.join(self.room, f"{name}-{number}")
        folder.put(call, path + ".out", path + ".err", end)
        told.ended(call, end)
