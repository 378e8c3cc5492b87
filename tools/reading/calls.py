"""Calls of the solver: those of a batch file, what came of them, and the folder that keeps it. All but `calls_of_batch` works for any list of calls.

A folder of results has the file `calls`, with a line for each call (its place, a checksum of its words and of the files that they name,
and the words); for each call that ended `PLACE.out`, `PLACE.err` and `PLACE.status`; and `results.txt`, which has all of it in the form of `./dypdl
batch`. A place is the number of a line of the batch. `PLACE.status` is written last, so a call without it has no result, and
`PLACE.out` may be what it printed before it failed."""

from __future__ import annotations

import fcntl
import hashlib
import os
import re
import shutil
import stat
import subprocess
import tempfile
from dataclasses import dataclass

from . import shell

# A verdict, or words or texts that are refused: more calls would print the same. Memory may be greater the next time.
ANSWERS = {0, 2, 3, 6, 7, 10, 11, 12}
KEPT = ANSWERS - {6}
OURS = re.compile(r"[0-9]{4,}\.(out|err|status)|results\.txt")


@dataclass(frozen=True)
class Call:
    """Words of the solver, with their place in the batch and a checksum of all that the answer hangs on."""

    place: int
    words: tuple
    sum: str

    @property
    def name(self):
        return f"{self.place:04}"

    def text(self):
        return " ".join(self.words)


@dataclass(frozen=True)
class End:
    """How a call ended: its status, which is None where it is not known, the seconds, and the machine."""

    status: int | None
    seconds: float
    where: str
    why: str = ""

    def answered(self):
        return self.status in ANSWERS

    def told(self):
        """In words, why this is no answer."""
        if self.why:
            return self.why
        if self.status is None:
            return "no answer came"
        causes = {1: "nothing was run", 4: "a file could not be read", 5: "its output could not be written", 126: "the program cannot be run", 127: "no such program"}
        if self.status > 128:
            return f"signal {self.status - 128} ended it"
        return f"status {self.status}: {causes.get(self.status, 'no status of the solver')}"


# ---- the lines of a batch

class Commands:
    """What `./dypdl help` says of the commands: how many words each takes, and which options. A program that has no such help tells nothing."""

    def __init__(self, program):
        self.counts, self.options, on = {}, {}, None
        for line in self.help(program):
            command = re.match(r"  ([a-z]+)((?: [A-Z]+)*)(?:  |$)", line)
            option = re.match(r"      (--[a-z]+)", line)
            if command:
                on = command.group(1)
                self.counts[on], self.options[on] = len(command.group(2).split()), set()
            elif option and on:
                self.options[on].add(option.group(1))
            elif line.startswith("These sources also read:"):
                self.add_unsaid(line.split()[4:])
        if "solve" not in self.counts:
            self.counts = None

    def add_unsaid(self, words):
        """What the program reads and its help has no line for: `--OPTION .. of 'solve'`, or a whole command."""
        command = "solve" if words[0].startswith("--") else words[0]
        if command not in self.counts:
            self.counts[command], self.options[command] = sum(word.isupper() for word in words), set()
        self.options[command].update(word for word in words if word.startswith("--"))

    @staticmethod
    def help(program):
        try:
            done = subprocess.run([program, "help"], stdout=subprocess.PIPE, stderr=subprocess.DEVNULL, stdin=subprocess.DEVNULL, check=False)
        except OSError as error:
            raise shell.Stop(f"{program}: {error.strerror}: it is no program that can be run") from None
        return done.stdout.decode("utf-8", "replace").splitlines()

    def wrong(self, words):
        """What is wrong with the words of a call, where that is certain; None where nothing is."""
        command = words[0]
        if command in ("batch", "build", "install", "help") or self.counts is not None and command not in self.counts:
            return f"'{command}' is no call of the solver"
        if self.counts is None:
            return None
        count, k, options, seen = 0, 1, True, set()
        while k < len(words):
            word = words[k]
            name = word.split("=", 1)[0]
            if options and word == "--":
                options = False
            elif options and word.startswith("--"):
                if name not in self.options[command]:
                    return f"'{command}' has no option '{name}'"
                if name in seen:
                    return f"the option '{name}' stands twice"
                seen.add(name)
                k += name == word
                if k >= len(words):
                    return f"the option '{name}' wants a value"
            else:
                count += 1
            k += 1
        wanted = self.counts[command]
        return None if count == wanted else f"'{command}' takes {wanted} words beside its options, and not {count}"


class Sums:
    """Checksums of files, each read once."""

    def __init__(self):
        self.known = {}

    def of(self, path):
        if path not in self.known:
            try:
                if not stat.S_ISREG(os.stat(path).st_mode):
                    raise shell.Stop(f"{path} is no plain file")
                with open(path, "rb") as file:
                    self.known[path] = hashlib.sha256(file.read()).hexdigest()
            except OSError as error:
                raise shell.Stop(f"{path}: {error.strerror}") from None
        return self.known[path]

    def of_words(self, words):
        files = shell.files_in(words)[1].values() if words[0] != "gen" else ()
        parts = [*words, *(self.of(path) for path in files)]
        return hashlib.sha256("\0".join(parts).encode("utf-8", "surrogateescape")).hexdigest()


def calls_of_batch(path, program):
    """The calls in a batch file. All lines are looked at before one is run."""
    commands, sums, found, wrong = Commands(program), Sums(), [], []
    text = shell.bytes_of(path).decode("utf-8", "surrogateescape")
    for place, line in enumerate(text.split("\n"), 1):
        words = tuple(re.split(r"[ \t]+", line.strip(" \t")))
        if words[0] == "" or words[0].startswith("#"):
            continue
        why = "a zero byte or a carriage return stands there" if re.search("[\0\r]", line) else commands.wrong(words)
        try:
            if why is None:
                found.append(Call(place, words, sums.of_words(words)))
        except shell.Stop as stop:
            why = stop
        if why is not None:
            wrong.append(f"line {place}: {shell.visible(str(why))}")
    if wrong:
        more = f"; and {len(wrong) - 3} more lines" if len(wrong) > 3 else ""
        raise shell.Stop(f"{path}: nothing was run: {'; '.join(wrong[:3])}{more}")
    if not found:
        raise shell.Stop(f"{path}: no call stands in it")
    return found


# ---- the folder of results

class Folder:
    """A folder of results, which one run at a time may write."""

    def __init__(self, path):
        self.path = os.path.abspath(path)
        self.lock = self.room = None
        self.is_made = self.is_new = False

    def file(self, name):
        return os.path.join(self.path, name)

    def take(self, calls, anew):
        """Takes the folder, made where it is not there, and tells which calls have no result in it. Nothing is taken away yet."""
        self.is_made = not os.path.exists(self.path)
        os.makedirs(self.path, exist_ok=True)
        there = os.listdir(self.path)
        if there and "calls" not in there:
            raise shell.Stop(f"{self.path} is no folder of results: the file 'calls' is not in it")
        self.lock = open(self.file("calls"), "a+", encoding="utf-8", errors="surrogateescape")
        try:
            fcntl.flock(self.lock, fcntl.LOCK_EX | fcntl.LOCK_NB)
        except BlockingIOError:
            raise shell.Stop(f"another run writes into {self.path}") from None
        except OSError:
            pass  # a file system without locks
        self.is_new = os.listdir(self.path) == ["calls"] and os.path.getsize(self.file("calls")) == 0
        held = {} if anew else self.held()
        self.refuse_others(calls, held)
        return [call for call in calls if not (call.place in held and held[call.place][0] == call.sum and self.is_kept(call))]

    def held(self):
        """The calls whose results may be in the folder: the place, the checksum and the words of each."""
        self.lock.seek(0)
        rows = [line[:-1].split(" ", 2) for line in self.lock if line.endswith("\n")]
        return {int(row[0]): (row[1], row[2]) for row in rows if len(row) == 3 and row[0].isdigit()}

    def refuse_others(self, calls, held):
        texts = {call.place: call.text() for call in calls}
        for place, (_, text) in held.items():
            if texts.get(place) != text:
                raise shell.Stop(f"{self.path} has results of another batch, whose line {place} is `{shell.visible(text)}`: --results names another folder, and --anew takes these away")

    def is_kept(self, call):
        end = self.end_of(call)
        return end is not None and end.status in KEPT and os.path.isfile(self.file(f"{call.name}.out"))

    def begin(self, calls, left, anew):
        """Writes down the calls, and takes away what the folder has of those that are left, of another batch, and of runs that were cut off."""
        kept = {call.name for call in calls} - {call.name for call in left}
        for name in os.listdir(self.path):
            if name.startswith("running-") or anew and name == "slurm" or OURS.fullmatch(name) and name.split(".")[0] not in kept:
                self.drop(name)
        self.lock.seek(0)
        self.lock.truncate()
        self.lock.writelines(f"{call.place} {call.sum} {call.text()}\n" for call in calls)
        self.lock.flush()
        self.room = tempfile.mkdtemp(prefix="running-", dir=self.path)

    def drop(self, name):
        if name.startswith("running-") or name == "slurm":
            shutil.rmtree(self.file(name), ignore_errors=True)
        else:
            os.unlink(self.file(name))

    def forget(self, call):
        """Takes the result of a call away, its status first."""
        for kind in ("status", "out", "err"):
            try:
                os.unlink(self.file(f"{call.name}.{kind}"))
            except FileNotFoundError:
                pass

    def put(self, call, printed, said, end):
        """Puts what a call printed in its place. Where it brought no answer there is no status, and what it printed before is kept."""
        self.forget(call)
        for path, kind in ((printed, "out"), (said, "err")):
            if os.path.exists(path):
                os.replace(path, self.file(f"{call.name}.{kind}"))
        if not end.answered():
            return
        status = os.path.join(self.room, f"{call.name}.status")
        with open(status, "w", encoding="utf-8") as file:
            file.write(f"status {end.status} seconds {end.seconds:.1f} on {end.where}\n")
        os.replace(status, self.file(f"{call.name}.status"))

    def end_of(self, call):
        """How a call ended whose result is there; None where none is."""
        try:
            with open(self.file(f"{call.name}.status"), encoding="utf-8", errors="replace") as file:
                found = re.fullmatch(r"status ([0-9]+) seconds ([0-9.]+) on (.*)\n", file.read())
        except FileNotFoundError:
            return None
        return found and End(int(found.group(1)), float(found.group(2)), found.group(3))

    def write_results(self, calls):
        """Writes `results.txt`: what `./dypdl batch` prints, for all calls that have a result."""
        path = os.path.join(self.room, "results.txt")
        with open(path, "wb") as out:
            for call in calls:
                end = self.end_of(call)
                if end:
                    out.write(f"== {call.text()}\n".encode("utf-8", "surrogateescape"))
                    with open(self.file(f"{call.name}.out"), "rb") as file:
                        shutil.copyfileobj(file, out)
                    out.write(f"status {end.status}\n".encode())
        os.replace(path, self.file("results.txt"))

    def leave(self):
        if self.room:
            shutil.rmtree(self.room, ignore_errors=True)
        elif self.is_new and self.lock:
            os.unlink(self.file("calls"))
            if self.is_made:
                os.rmdir(self.path)
        if self.lock:
            self.lock.close()


def last_told(path):
    """The verdict in what a call printed, or else its last line. A step may be called as a verdict is, so steps are passed over."""
    last, steps = b"", 0
    with open(path, "rb") as file:
        for line in file:
            row = line.rstrip(b"\n")
            if steps:
                steps -= 1
                continue
            if row.startswith(b"verdict "):
                last = row
                break
            found = re.fullmatch(rb"solution -?[0-9]+ ([0-9]+)", row)
            steps = int(found.group(1)) if found else 0
            last = row or last
    return shell.visible(last[:200].decode("utf-8", "replace"))
