#!/usr/bin/env python3
"""Runs the cases of crates/cases_runs through a built program, and shows where it prints something else than
its file stdout:

    python3 tools/cases/through.py PROGRAM [FILE ..]

from the top of the repository; FILE is a name in data/ without its ending, all of them where none is given. The crate itself
runs them in memory, in the gate; this needs only a program, and no build. Texts that are filled when a case runs, cut at each byte
or given noise are made here too; for cuts and noise the program is run thousands of times. The status is 0 where all agree."""

import os
import subprocess
import sys
import tempfile
from pathlib import Path

import made_texts
from asked import asked
from case_lines import unescaped_bytes

CRATE = Path("crates/cases_runs")
TEXTS = {"domain": "d", "problem": "p", "list": "l"}


def entries(path):
    """The entries of a file of cases: a key and a text, whose escapes are gone."""
    found = []
    for line in path.read_text(encoding="ascii").splitlines():
        if line == "|" or line.startswith("| "):
            found[-1][1].append(line[2:] + "\n")
        elif line and not line.startswith("#"):
            key, _, text = line.partition(" ")
            found.append((key, [text]))
    return [(key, unescaped_bytes("".join(pieces))) for key, pieces in found]


def run(program, folder, words):
    given = words.decode().split(" ") if words else []
    done = subprocess.run([program, *given], cwd=folder, capture_output=True, check=False)
    return done.stdout.decode("utf-8", "replace"), done.returncode


class Runs:
    """Runs over the texts of a file of cases, in a folder."""

    def __init__(self, program, folder):
        self.program, self.folder = program, folder
        self.texts = {key: b"" for key in TEXTS}
        self.pieces = []
        for key in TEXTS:
            self.set(key, b"")

    def set(self, key, text):
        self.texts[key] = text
        Path(self.folder, TEXTS[key]).write_bytes(text)

    def tally(self, words, pairs):
        tally = made_texts.Tally()
        kept = self.texts["domain"], self.texts["problem"]
        for pair in [*pairs, kept]:
            for key, text in zip(("domain", "problem"), pair):
                if self.texts[key] != text:
                    self.set(key, text)
            if pair is not kept:
                tally.add(*run(self.program, self.folder, words))
        return tally.text()

    def take(self, key, text):
        """What an entry prints."""
        if key in TEXTS:
            self.set(key, text)
        elif key == "many":
            name, count, piece = text.split(b" ", 2)
            self.set(name.decode(), made_texts.filled(self.texts[name.decode()], int(count), piece))
        elif key == "piece":
            self.pieces.append(text)
        elif key == "cuts":
            tally = self.tally(text, made_texts.cuts(self.texts["domain"], self.texts["problem"]))
            return f"-- {text.decode()}, each text cut at each byte\n{tally}"
        elif key == "noise":
            count, seed, words = text.split(b" ", 2)
            pairs = made_texts.noises(self.texts["domain"], self.texts["problem"], self.pieces, int(count), int(seed))
            return f"-- {words.decode()}, {int(count)} texts with noise, from {int(seed)} on\n{self.tally(words, pairs)}"
        else:
            output, status = run(self.program, self.folder, text)
            if key == "last":
                output = "..\n" + output.splitlines(True)[-1]
            return f"-- {text.decode()}\n{output}status {status}\n"
        return ""


def printed(program, path):
    """What the crate prints for a file of cases: a piece for each case."""
    pieces = []
    with tempfile.TemporaryDirectory() as folder:
        runs = Runs(program, folder)
        for key, text in entries(path):
            if key == "case":
                pieces.append(f"== {text.decode()}\n")
            else:
                told = runs.take(key, text)
                if told:
                    pieces[-1] += told
    return pieces


def wanted():
    """What must be printed, by the first line of a case."""
    text = "\n" + (CRATE / "stdout").read_text(encoding="utf-8")
    return [f"== {piece}".removesuffix("\n") + "\n" for piece in text.split("\n== ")[1:]]


def main(program, names):
    paths = [path for path in sorted((CRATE / "data").glob("*.txt")) if not names or path.stem in names]
    answers = wanted()
    cases = bad = 0
    for path in paths:
        for piece in printed(program, path):
            cases += 1
            if piece not in answers:
                bad += 1
                same = [answer for answer in answers if answer.split("\n")[0] == piece.split("\n")[0]]
                print(f"--- {path.name}, wanted:\n{''.join(same)}--- came:\n{piece}")
    print(f"{cases - bad} of {cases} cases agree")
    sys.exit(1 if bad else 0)


if __name__ == "__main__":
    words = asked(__doc__, 1, None, "program")
    main(os.path.abspath(words[0]), words[1:])
