"""The runs of the guide: each command that docs/GUIDE.md shows, with what it shows for it.

Each case is a title, its texts, its runs and its runs of which the last line is shown, as in small_runs.py. The files that a
command names are those of the repository; one that is not there keeps its name. That a piece of YAML in the guide stands in
such a file is asked too."""

import re
from pathlib import Path

GUIDE = "docs/GUIDE.md"
FILES = "models/**/*.yaml"
NAMES = {"domain": "d", "problem": "p", "list": "l"}
LAST = " | tail -n 1"
PROGRAM = r"^(\./dypdl|dypdl|dypdl_solve) "
STATUSES = {
    "verdict optimal": 0, "verdict legal": 0, "verdict certified": 0, "bounds": 0, "usage:": 2, "refused": 3, "read fault": 4,
    "verdict infeasible": 10, "verdict rejected": 10, "verdict illegal": 10, "verdict stopped": 11, "verdict fault": 12,
}


def status_of(text):
    """The status of a run, by what it prints: the line of a verdict is the last, but for the steps of a fault."""
    beginnings = [begins for line in text.splitlines() for begins in STATUSES if line.startswith(begins)]
    return STATUSES[beginnings[-1]]


def blocks(kind):
    """The pieces of the guide that stand between fences of a kind, without their indent."""
    inside, indent, piece = None, "", []
    for line in Path(GUIDE).read_text(encoding="utf-8").splitlines(True):
        text = line.strip()
        if inside is None and text.startswith("```"):
            inside, indent, piece = text[3:], line[: line.index("`")], []
        elif inside is not None and text == "```":
            if inside == kind:
                yield "".join(piece)
            inside = None
        elif inside is not None:
            piece.append(line.removeprefix(indent))


def commands():
    """The words of each command of the solver, whether its last line is shown alone, and its text. Behind those that are called as `./dypdl` stand
    those of a folder with the program, which a fence of a console has."""
    for block in [*blocks(""), *blocks("console")]:
        for part in re.split(r"^\$ ", block, flags=re.MULTILINE)[1:]:
            command, text = part.split("\n", 1)
            shortened = command.endswith(LAST)
            yield re.sub(PROGRAM, "", command.removesuffix(LAST)).split(" "), shortened, text


def case(words, shortened, text):
    command, *names = words
    texts, given = [], []
    for kind, name in zip(NAMES, names):
        if Path(name).is_file():
            texts.append((kind, Path(name).read_bytes().decode()))
            name = NAMES[kind]
        given.append(name)
    run = ([command, *given, *names[len(given) :]], text, status_of(text))
    return (" ".join(words), texts, [] if shortened else [run], [run] if shortened else [])


def check_pieces():
    """Each piece of YAML in the guide stands in a file of the model."""
    files = [path.read_text(encoding="utf-8") for path in Path(".").glob(FILES)]
    for piece in blocks("yaml"):
        wanted = "".join(line.strip() for line in piece.splitlines())
        assert any(wanted in "".join(line.strip() for line in file.splitlines()) for file in files), piece


def cases():
    check_pieces()
    found = {}
    for made in (case(*command) for command in commands()):
        assert found.setdefault(made[0], made) == made, made[0]  # what is shown twice is the same
    return list(found.values())
