"""The file stdout of crates/cases_runs, which two programs write: runs.py the front, and made_runs.py the end, from the first case on
whose texts are made when it runs."""

from pathlib import Path

import hostile_runs

CRATE = "crates/cases_runs"
STDOUT = Path(CRATE, "stdout")


def parts():
    """The front and the end, as they are stored."""
    text = STDOUT.read_text(encoding="utf-8")
    first = next(hostile_runs.deep()).wanted[0]
    place = text.find(f"\n{first}") + 1
    return (text[:place], text[place:]) if place else (text, "")


def write_front(text):
    STDOUT.write_text(text + parts()[1], encoding="utf-8")


def write_end(text):
    STDOUT.write_text(parts()[0] + text, encoding="utf-8")
