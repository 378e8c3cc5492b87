"""Runs that are to end after so many seconds: a clock with a line of progress, and searches whose budget of visits fits into a time."""

import os
import resource
import signal
import subprocess
import sys
import time

FIRST_BUDGET, GREATEST_BUDGET, MOST_GROWTH, SAFE, ROOM = 64, 2**40, 32, 0.8, 0.8
STOPPED = 11


class Clock:
    """When a work is to stop, and its line of progress on standard error: on a terminal one that changes, else one each ten seconds."""

    def __init__(self, name, seconds=None):
        self.name, self.began = name, time.monotonic()
        self.until = None if seconds is None else self.began + seconds
        self.changing = sys.stderr.isatty()
        self.told = self.began

    def spent(self):
        return time.monotonic() - self.began

    def left(self):
        """The seconds that are left; None where there is no end."""
        return None if self.until is None else max(0.0, self.until - time.monotonic())

    def is_over(self):
        return self.until is not None and time.monotonic() >= self.until

    def share(self, part):
        """A clock for a part of what is left, which tells its progress as this one does."""
        found = Clock(self.name, None if self.until is None else self.left() * part)
        found.began, found.told = self.began, self.told
        return found

    def tell(self, words):
        now = time.monotonic()
        if now - self.told >= (0.5 if self.changing else 10):
            self.told = now
            sys.stderr.write(("\r\x1b[K" if self.changing else "") + f"{self.name}: {now - self.began:.1f} s  {words}" + ("" if self.changing else "\n"))
            sys.stderr.flush()

    def clear(self):
        if self.changing:
            sys.stderr.write("\r\x1b[K")
            sys.stderr.flush()


class Run:
    """A run of the program that is over: what it printed, its status, whether it was ended from outside, and how long it took."""

    def __init__(self, data, status, is_ended, took):
        self.data, self.status, self.is_ended, self.took = data, status, is_ended, took

    def is_answer(self, is_most):
        """Whether more visits would print nothing else, or are not wanted."""
        return is_most or self.status != STOPPED and not self.lacks_certificate()

    def lacks_certificate(self):
        return self.data.rstrip(b"\n").rpartition(b"\n")[2].startswith(b"certificate stopped ")


class Search:
    """A search within so many seconds. Short runs tell its pace; the last run has a budget that fits, so that it ends by itself with `stopped`
    where it does not end before. `words` are those of `solve` without a budget, and `most` the greatest budget that is wanted."""

    def __init__(self, program, words, seconds, most=None):
        self.program, self.words, self.seconds = program, words, seconds
        self.most = GREATEST_BUDGET if most is None else most
        self.began, self.child, self.caught, self.budget = time.monotonic(), None, None, None
        self.parts = 2 if option_in(words, "--certificate")[0] == "on" else 1  # a certificate has a budget of its own

    def left(self):
        return max(0.0, self.seconds - (time.monotonic() - self.began))

    def start(self, budget, output):
        self.child = subprocess.Popen([self.program, self.words[0], "--budget", str(budget), *self.words[1:]], stdout=output)
        return self.child

    def end(self, number, _frame=None):
        """A signal ends the run that is on its way."""
        self.caught = number
        if self.child is not None and self.child.poll() is None:
            self.child.terminate()

    def run(self, budget, seconds):
        """A short run, which is ended after so many seconds."""
        import tempfile

        began = time.monotonic()
        with tempfile.TemporaryFile() as output:
            child = self.start(budget, output)
            is_ended = ends_late(child, seconds)
            took = time.monotonic() - began
            output.seek(0)
            return Run(output.read(), child.returncode, is_ended or self.caught is not None, took)

    def fit(self):
        """Makes short runs, each longer than the one before. The run that came to its end by itself, if one did; else None, and `budget` is what
        fits into the time that is left."""
        run = self.run(1, self.left() / 2)
        start, budget, pace, least_memory = run.took, 1, None, memory_of_runs()
        while not run.is_ended and not run.is_answer(budget == self.most):
            took = max(run.took - start, 0.002, start / 10)
            pace = budget / took if budget > 1 else None
            if took * 20 >= self.seconds or self.left() < max(0.6 * self.seconds, 3 * start):
                break
            budget = self.next_budget(budget, took)
            run = self.run(budget, self.left() / 4)
        if self.caught is not None or not run.is_ended and run.is_answer(budget == self.most):
            return run
        wanted = self.fitting(pace, start, (budget, run.took) if run.is_ended else None)
        self.budget = max(1, min(wanted, self.room(budget, least_memory)))
        return None

    def next_budget(self, budget, took):
        """One that may take a tenth of the time."""
        wanted = FIRST_BUDGET if budget == 1 else int(budget * self.seconds / 10 / took)
        return min(self.most, max(2 * budget, min(MOST_GROWTH * budget, wanted)))

    def room(self, budget, least_memory):
        """How many visits there is memory for: what a visit of the longest run took more than the first run, and most of what is free."""
        free, taken = memory_that_is_free(), memory_of_runs() - least_memory
        return self.most if free is None or taken <= 0 else int(ROOM * free * budget / taken)

    def fitting(self, pace, start, ended):
        """The budget for the last run: by the pace of the longest run, and no more than one that was ended lets hope for."""
        rest = max(0.0, self.left() - start)
        wanted = SAFE * pace * rest if pace else FIRST_BUDGET
        if ended:
            wanted = min(wanted, 0.6 * ended[0] * rest / max(ended[1], 0.001))
        return max(1, min(self.most, int(wanted / self.parts)))


def memory_of_runs():
    """The bytes that the greatest of the runs so far took."""
    return 1024 * resource.getrusage(resource.RUSAGE_CHILDREN).ru_maxrss


def memory_that_is_free():
    """The bytes of memory that are free; None where the system does not tell it."""
    try:
        with open("/proc/meminfo", encoding="ascii") as file:
            found = [line.split()[1] for line in file if line.startswith("MemAvailable:")]
        return 1024 * int(found[0])
    except (OSError, ValueError, IndexError):
        return None


def ends_late(child, seconds):
    """Waits for a run; one that takes longer is ended. Whether it was."""
    try:
        child.wait(timeout=max(0.0, seconds))
        return False
    except subprocess.TimeoutExpired:
        child.terminate()
    try:
        child.wait(timeout=5)
    except subprocess.TimeoutExpired:
        child.kill()
        child.wait()
    return True


def option_in(words, name):
    """The value of an option where it stands first among words, and the words without it; None where it does not stand."""
    k = 1
    while k < len(words) and words[k] != "--":
        here, _, value = words[k].partition("=")
        wide = 2 if here.startswith("--") and here == words[k] else 1
        if here == name and k + wide <= len(words):
            return value if wide == 1 else words[k + 1], words[:k] + words[k + wide :]
        k += wide
    return None, words


def status_of(code):
    """The status of a shell for the end of a child: 128 and the signal's number where a signal ended it."""
    return code if code >= 0 else 128 - code


def answer(data, status):
    """Prints what a run printed, with its status; that of a write that failed where it cannot be printed."""
    try:
        while data:
            data = data[os.write(1, data) :]
    except OSError:
        return 5
    return status


def timed(program, words, seconds):
    """Searches within so many seconds, on standard output. The bytes are those of the last run, and so is the status."""
    budget, rest = option_in(words, "--budget")
    if budget is not None and not (budget.isdecimal() and len(budget) < 20 and 1 <= int(budget) <= GREATEST_BUDGET):
        return status_of(subprocess.run([program, *words], check=False).returncode)  # which refuses them
    search = Search(program, rest, seconds, budget and int(budget))
    for number in (signal.SIGINT, signal.SIGTERM, signal.SIGHUP):
        signal.signal(number, search.end)
    run = search.fit()
    if run is not None:
        return answer(run.data, 128 + search.caught if search.caught else status_of(run.status))
    child = search.start(search.budget, None)
    ends_late(child, search.left() + max(0.5, seconds / 10))
    return 128 + search.caught if search.caught else status_of(child.returncode)
