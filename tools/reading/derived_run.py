"""A search over a model with bounds that were made for it, told as one of the model as written.

The program runs over the derived text, and its lines are handed on as they come, but for those of the bounds that were made. The verdict is held back
until the program's `replay` of the last list over the model as written says that it is legal, and of the cost that was printed."""

import os
import re
import signal
import subprocess
import sys
import tempfile

from . import seconds, shell

PART = re.compile(r"bound ([0-9]+) (proved|open)\n?\Z")
SOLUTION = re.compile(r"solution (-?[0-9]+) ([0-9]+)\n?\Z")


class Caught(Exception):
    """A signal."""


class Made:
    """A text with bounds that were made: its two files, and how many stand in front of the model's own."""

    def __init__(self, count, files):
        self.count, self.files = count, files


class Run:
    """One search. `files` are the two files as written, `texts` those with bounds that were made, the one with most of them first; `made` is how many
    the text has that is searched."""

    def __init__(self, program, files, texts, tell):
        self.program, self.files, self.texts, self.tell, self.made = program, files, texts, tell, 0
        self.cost, self.steps, self.left, self.child = None, [], 0, None
        self.words = []  # of each bound that was made `proved` or `open`, as the program tells it

    def proves(self, text):
        """Whether the program proves each bound that was made: a search of one visit tells it in its first lines."""
        words = [self.program, "solve", *text.files, "--prune", "proved", "--budget", "1"]
        done = subprocess.run(words, stdout=subprocess.PIPE, stderr=subprocess.DEVNULL, stdin=subprocess.DEVNULL, check=False)
        told = done.stdout.decode("utf-8", "replace").splitlines()[: text.count]
        return told == [f"bound {number} proved" for number in range(1, text.count + 1)]

    def chosen(self, options):
        """The text that is searched, and the options: the first text of which all bounds that were made are proved, and else the first one."""
        prune, _ = seconds.option_in(["solve", *options], "--prune")
        if not self.texts:
            return Made(0, self.files), [*options, *([] if prune else ["--prune", "proved"])]
        text = None if prune in ("on", "off") else next((text for text in self.texts if self.proves(text)), None)
        if prune is not None:
            return text or self.texts[0], options
        if text is None:
            self.tell(f"not all of the {self.texts[0].count} bounds that were made are proved by the program; the search believes them, as `--prune on` does")
        return text or self.texts[0], [*options, "--prune", "proved" if text else "on"]

    def search(self, options, within):
        """Runs the program, within so many seconds where these are given. Its status, and the lines from the verdict on."""
        text, options = self.chosen(options)
        self.made = text.count
        words = ["solve", *text.files, *options]
        timed = [] if within is None else [sys.executable, os.path.join(shell.TOP, "tools", "timed")]
        limit = [] if within is None else ["--seconds", f"{max(0.05, within):.2f}"]
        self.child = subprocess.Popen([*timed, self.program, *limit, *words], stdout=subprocess.PIPE, stdin=subprocess.DEVNULL)
        held = []
        for line in self.child.stdout:
            text = line.decode("utf-8", "replace")
            if held or not self.left and text.startswith("verdict "):
                held.append(line)
            else:
                self.pass_on(line, text)
        return seconds.status_of(self.child.wait()), held

    def pass_on(self, line, text):
        """Hands a line on; that of a bound that was made is told on standard error, and the model's own are counted as it has them."""
        if self.left:
            self.left -= 1
            self.steps.append(line)
        elif SOLUTION.match(text):
            found = SOLUTION.match(text)
            self.cost, self.left, self.steps = found.group(1), int(found.group(2)), []
        elif self.cost is None and PART.match(text):
            found = PART.match(text)
            number = int(found.group(1))
            if number <= self.made:
                self.tell_part(found.group(2))
                return
            line = f"bound {number - self.made} {found.group(2)}\n".encode()
        sys.stdout.buffer.write(line)
        sys.stdout.buffer.flush()

    def tell_part(self, word):
        self.words.append(word)
        self.tell(f"bound {len(self.words)} of {self.made} that were made is {word}")
        if len(self.words) == self.made and "proved" not in self.words:
            self.tell("none of them is proved, so the search uses none; `--prune on` believes them")

    def judged(self):
        """Whether the last list is legal over the model as written, and of the cost that was printed. Where no list was printed there is nothing to judge."""
        if self.cost is None:
            return True
        with tempfile.TemporaryDirectory() as room:
            path = os.path.join(room, "list")
            with open(path, "wb") as file:
                file.writelines(self.steps)
            done = subprocess.run([self.program, "replay", *self.files, path], stdout=subprocess.PIPE, stderr=subprocess.DEVNULL, stdin=subprocess.DEVNULL, check=False)
        said = done.stdout.decode("utf-8", "replace").splitlines()[-1:]
        if said == [f"verdict legal {self.cost}"]:
            return True
        self.tell(f"the last list is not what was printed: `replay` over the model as written says `{(said or ['nothing'])[0]}`, and the cost was {self.cost}; no verdict is handed on")
        return False

    def end(self, number, _frame):
        if self.child is not None and self.child.poll() is None:
            self.child.terminate()
        raise Caught(number)


def solved(run, options, within):
    """Searches and judges; the status is the program's."""
    for number in (signal.SIGINT, signal.SIGTERM, signal.SIGHUP):
        signal.signal(number, run.end)
    try:
        status, held = run.search(options, within)
        if not run.judged():
            return 1
    except Caught as caught:
        return 128 + caught.args[0]
    sys.stdout.buffer.writelines(held)
    sys.stdout.buffer.flush()
    return status
