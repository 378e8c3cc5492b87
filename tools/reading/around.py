"""What tools/check tries around the tools: the links of the pages, the front page, packages, and calls over machines. A `check` counts what agrees."""

import fnmatch
import os
import re
import shutil
import subprocess
import sys
import tempfile

from . import links

MACHINES_BATCH = """# more than one would do
gen tour 5 1
show models/deliveries/domain.yaml models/deliveries/problem.yaml
show models/deliveries/drafts/domain_1.yaml models/deliveries/problem.yaml

solve models/deliveries/domain.yaml models/deliveries/problem.yaml --certificate on
solve models/deliveries/domain.yaml models/deliveries/drafts/too_much.yaml
gen tour 6 1
gen tour 7 1
"""
# In place of ssh: `near` is this machine, `dead` does not answer, and the line to `torn` breaks after it answered once.
NO_SSH = """#!/bin/sh
host="$1"
shift
[ "$1" != -- ] || shift
case "$host" in
    dead) echo 'no route to host' >&2; exit 255 ;;
    torn) [ ! -e "$ROOM/asked" ] || { echo 'broken pipe' >&2; exit 255; }; : >"$ROOM/asked" ;;
esac
exec sh -c "$*"
"""


def write(path, text):
    with open(path, "w", encoding="utf-8", newline="") as file:
        file.write(text)


def bytes_in(path):
    with open(path, "rb") as file:
        return file.read()


def printed(words, given=b""):
    """What a tool prints."""
    return subprocess.run([sys.executable, os.path.join("tools", words[0]), *words[1:]], input=given, capture_output=True, check=False).stdout.decode()


def alone(program, calls):
    """What `./dypdl batch` prints of these calls."""
    out = b""
    for call in calls:
        done = subprocess.run([program, *call.split()], capture_output=True, check=False)
        out += f"== {call}\n".encode() + done.stdout + f"status {done.returncode}\n".encode()
    return out


def words_of_spread(check, room):
    """Batches with wrong lines, files that name no machine, and folders that are not for results."""
    lines = ["", "# none", "solv a b", "show nowhere b", "solve models/deliveries/domain.yaml", "gen tour 5 1 --time 7", "gen tour 5 1 --workers", "show a b\r", "batch calls.txt"]
    batch, hosts = os.path.join(room, "calls.txt"), os.path.join(room, "hosts.txt")
    for line in lines:
        write(batch, f"{line}\n")
        check.ends_well(["spread", batch])
    for bad in ("models", "nowhere", "docs/pictures/report.png"):
        check.ends_well(["spread", bad])
    write(batch, "gen tour 5 1\n")
    for line in ("", "# none", "two words", "-oProxyCommand=none", "0/:", ":\n2/:", "a;b"):
        write(hosts, f"{line}\n")
        check.ends_well(["spread", batch, "--hosts", hosts])
    for more in (["--jobs", "0"], ["--tries", "many"], ["--hosts", "nowhere"], ["--hosts", hosts, "--slurm"], ["--sbatch", "words"], ["--place", "models"], ["--results", "/proc/results"], ["--results", batch], ["--results", "models"]):
        check.ends_well(["spread", batch, *more])
    check.ends_well(["spread", "-"], b"gen tour 5 1\n")
    check.same("no folder of results is made", [], [name for name in os.listdir(room) if "results" in name])


def dead_links(check):
    check.same("links", [], links.dead("."))


def front_page(check, program):
    """The model on the front page, with what is shown for it; and that its table names each crate."""
    text = bytes_in("README.md").decode()
    named = re.findall(r"`([\w*]+)`", text[text.index("## What is proved today") :])
    crates = re.findall(r"^(\w+) *:", bytes_in("crates.txt").decode(), re.MULTILINE)
    check.same("crates on the front page", [], [crate for crate in crates if not any(fnmatch.fnmatch(crate, name) for name in named)])
    texts = re.findall(r"^```yaml\n(.*?)^```$", text, re.DOTALL | re.MULTILINE)
    shown = re.findall(r"^```\n\$ \./dypdl solve domain.yaml problem.yaml [^\n]*\n(.*?)^```$", text, re.DOTALL | re.MULTILINE)
    check.same("README.md", (2, 1), (len(texts), len(shown)))
    with tempfile.TemporaryDirectory() as room:
        names = [os.path.join(room, name) for name in ("domain.yaml", "problem.yaml")]
        for name, part in zip(names, texts):
            write(name, part)
        told = printed(["lint_model", *names]).splitlines()
        check.same("lint_model on the model of README.md", [True], ["there is no dual bound" in line for line in told])
        if program:
            out = subprocess.run([program, "solve", *names], capture_output=True, check=False).stdout
            check.same("the run of README.md", shown[0], printed(["watch", "--quiet"], out))


def packages(check, program):
    """An archive and a Debian package, each made twice, and the program out of each in a place with nothing else."""
    with tempfile.TemporaryDirectory(prefix="a room ") as room:
        kept = os.path.join(room, "kept")
        os.mkdir(kept)
        shutil.copy(program, os.path.join(kept, "0" * 32))
        script = f". ./dypdl sourced; sum={'0' * 32}; proved=/nowhere; unproved=\"$ROOM/kept\"; "
        for kind in ("archive", "deb") if shutil.which("dpkg-deb") else ("archive",):
            made = []
            for mask in ("022", "077"):
                out = os.path.join(room, kind, mask)
                done = subprocess.run(["bash", "-c", f'umask {mask}; {script} install_words --{kind} "$OUT"'], env={**os.environ, "ROOM": room, "OUT": out}, capture_output=True, check=False)
                check.same(f"install --{kind}", 0, done.returncode)
                made.append({name: bytes_in(os.path.join(out, name)) for name in sorted(os.listdir(out))})
            check.same(f"install --{kind} once more", True, made[0] == made[1] and len(made[0]) == (2 if kind == "archive" else 1))
            unpacked(check, kind, out, os.path.join(room, kind, "unpacked"))


def unpacked(check, kind, made, to):
    """Unpacks a package, and runs its program and a tool from there, with no home and little on the path."""
    os.mkdir(to)
    script = {
        "archive": 'cd "$MADE" && sha256sum --status -c *.sha256 && tar -xzf *.tar.gz -C "$TO" && mv "$TO"/*/* "$TO"',
        "deb": 'dpkg-deb -x "$MADE"/*.deb "$TO" && mv "$TO"/usr/* "$TO" && dpkg-deb -f "$MADE"/*.deb Package | grep -qx dypdl',
    }[kind] + ' && cd "$TO/share/dypdl" && ./dypdl solve models/deliveries/domain.yaml models/deliveries/problem.yaml | tools/plan models/deliveries/domain.yaml models/deliveries/problem.yaml - | head -n 1'
    done = subprocess.run(["bash", "-c", script], env={"PATH": "/usr/bin:/bin", "HOME": "/nowhere", "MADE": made, "TO": to}, capture_output=True, check=False)
    check.same(f"the program in a package, {kind}", ("deliveries, four customers: cost 28, 6 steps\n", "dypdl: an unproved build answers\n"), (done.stdout.decode(), done.stderr.decode()))


def machines(check, program):
    """Calls over machines: one that answers, one that does not, and one whose line breaks. Where GNU parallel is not there, what is told of that."""
    with tempfile.TemporaryDirectory(prefix="a room ") as room:
        batch, hosts, ssh = (os.path.join(room, name) for name in ("calls.txt", "hosts.txt", "ssh"))
        write(batch, MACHINES_BATCH)
        write(hosts, "2/:\n2/near # one that answers\ndead\n1/torn\n")
        write(ssh, NO_SSH)
        os.chmod(ssh, 0o755)
        words = [sys.executable, "tools/spread", batch, "--program", program, "--hosts", hosts]
        env = {**os.environ, "PARALLEL_SSH": f"'{ssh}'", "ROOM": room}
        done = subprocess.run(words, env={**env, "PATH": "/nowhere"}, capture_output=True, check=False)
        check.same("without GNU parallel", (1, 1, True), (done.returncode, done.stderr.count(b"\n"), b"apt install parallel" in done.stderr))
        check.same("no folder of results is made of it", False, os.path.exists(f"{batch}.results"))
        if not shutil.which("parallel"):
            return
        done = subprocess.run(words, env=env, capture_output=True, check=False)
        said = done.stderr.decode().splitlines()
        check.same("dead is left out", ["spread: dead is left out: no route to host"], said[:1])
        check.same("a broken line", [], [line for line in said[1:-1] if not re.fullmatch(r"spread: line \d+ failed on torn: the line to it broke: broken pipe", line) and "torn is left out" not in line])
        calls = [line for line in MACHINES_BATCH.splitlines() if line and not line.startswith("#")]
        check.same("calls over machines", (0, len(calls) + 1), (done.returncode, done.stdout.count(b"\n")))
        check.same("their results", alone(program, calls), bytes_in(f"{batch}.results/results.txt"))


def all_of_them(check, program):
    dead_links(check)
    front_page(check, program)
    with tempfile.TemporaryDirectory() as room:
        words_of_spread(check, room)
    if program:
        packages(check, program)
        machines(check, program)
