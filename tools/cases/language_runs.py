"""The runs of docs/LANGUAGE.md: each of its examples, with what it says of it.

A table with a column `example` has expressions, with their values in the target state of models/language, and beside them expressions
without a value or a meaning, with the refusal or the fault that they lead to. A table with a column `a line` has lines of the two files of
that model, and lines that are refused in their place, with the refusal. Values and refusals are worked out by the reader of tools/reading,
which shares no code with the solver.

    python3 tools/cases/language_runs.py

from the top of the repository says where the page is wrong. The cases are written by runs.py, behind those of the guide."""

import re
import sys
from pathlib import Path

sys.path.insert(0, str(Path(__file__).resolve().parent.parent))

from reading import model, values  # noqa: E402
from reading.places import Refused  # noqa: E402

import model_reading  # noqa: E402

PAGE = "docs/LANGUAGE.md"
DOMAIN, PROBLEM = (Path(f"models/language/{name}.yaml") for name in ("domain", "problem"))
STATUSES = {"solution": 0, "refused": 3, "verdict fault": 12}
BARS = "\x00"


def tables():
    """The tables of the page: of each row a map from the head of a column to its cell."""
    head = None
    for line in [*PAGE_LINES(), ""]:
        if not line.startswith("|"):
            head = None
            continue
        cells = [cell.strip().replace(BARS, "|") for cell in line.replace("\\|", BARS).strip().strip("|").split("|")]
        if head is None:
            head = cells
        elif not set(line) <= set("|-: "):
            yield dict(zip(head, cells))


def PAGE_LINES():
    return Path(PAGE).read_text(encoding="utf-8").splitlines()


def code(cell):
    """The pieces of a cell between back quotes."""
    return re.findall(r"`([^`]*)`", cell)


# ---- expressions

def asked(kind, expression):
    """An expression of a kind as a number: of a condition 1 where it holds, of a set the sum of 10 to the power of its members."""
    return {"number": expression, "condition": f"(if {expression} 1 0)", "set": f"(sum digit {expression})"}[kind]


def kind_of(value):
    return "set" if value.startswith("{") else "condition" if value in ("true", "false") else "number"


def as_number(value):
    if kind_of(value) == "set":
        return sum(10 ** int(member) for member in re.findall(r"\d+", value))
    return {"true": 1, "false": 0}.get(value) if kind_of(value) == "condition" else int(value)


def probe(expression):
    """The two texts for an expression: the model, with one base case alone, which holds in the target and costs the expression."""
    domain = DOMAIN.read_text(encoding="utf-8")
    domain = domain[: domain.index("base_cases:")].replace("tables:\n", "tables:\n  - { name: digit, type: integer, args: [ town ] }\n")
    problem = PROBLEM.read_text(encoding="utf-8") + "  digit: [ 1, 10, 100, 1000 ]\n"
    return domain, problem + f'base_cases:\n  - conditions: [ true ]\n    cost: "{expression}"\n'


def ended(domain, problem):
    """What `solve` prints where the target is a base state, or the text is refused, or has a fault; and the status."""
    try:
        read = model.load(domain.encode(), problem.encode())
    except Refused as refused:
        return f"{refused.line_printed()}\n", 3
    _, stop = values.replayed(read, [])
    if stop.fault:
        return "\n".join(stop.verdict([])) + "\n", 12
    return f"solution {stop.cost} 0\nverdict optimal {stop.cost}\n", 0


def told(text):
    """The number and name of a refusal, or the kind of a fault."""
    words = text.split()
    return " ".join(words[2:4]) if words[0] == "refused" else words[2] if words[1] == "fault" else text


def expression_cases(row):
    for example, value in zip(code(row["example"]), code(row["its value"])):
        text, status = ended(*probe(asked(kind_of(value), example)))
        yield example, probe(asked(kind_of(value), example)), (text, status), (f"solution {as_number(value)} 0", text.split("\n")[0])
    kind = kind_of(code(row["its value"])[0])
    for example, end in zip(code(row["not"]), code(row["since"])):
        text, status = ended(*probe(asked(kind, example)))
        yield example, probe(asked(kind, example)), (text, status), (end, told(text))


# ---- lines of the files

def with_line(line, other):
    """The two texts with another line in place of one, which keeps its indent."""
    texts = [path.read_text(encoding="utf-8") for path in (DOMAIN, PROBLEM)]
    number = next(k for k, text in enumerate(texts) if any(row.strip() == line for row in text.split("\n")))
    rows = texts[number].split("\n")
    place = next(k for k, row in enumerate(rows) if row.strip() == line)
    rows[place] = rows[place].replace(line, other)
    texts[number] = "\n".join(rows)
    return texts


def line_cases(row):
    for line, other, end in zip(code(row["a line"]), code(row["not"]), code(row["since"])):
        texts = with_line(line, other)
        text, status = model_reading.run("solve d p", texts[0].encode(), texts[1].encode())
        yield other, texts, (text, status), (end, told(text))


def all_cases():
    """Of each example its name, its texts, what is printed, and what the page says with what it should say."""
    texts = [path.read_text(encoding="utf-8") for path in (DOMAIN, PROBLEM)]
    yield "the model", texts, model_reading.run("solve d p", *(text.encode() for text in texts)), (True, True)
    for row in tables():
        if "example" in row:
            yield from expression_cases(row)
        elif "a line" in row:
            yield from line_cases(row)


def cases():
    """Cases as runs.py writes them."""
    for name, (domain, problem), (text, status), (says, is_so) in all_cases():
        assert says == is_so, f"{PAGE}: {name}: {says}, and not {is_so}"
        title = name.replace("\\", "")  # a backslash would escape what follows it
        yield f"language: {title}", [("domain", domain), ("problem", problem)], [(["solve", "d", "p"], text, status)]


def main():
    bad = 0
    number = 0
    for number, (name, _, _, (says, is_so)) in enumerate(all_cases(), 1):
        if says != is_so:
            bad += 1
            print(f"{PAGE}: `{name}`: {says}, and not {is_so}")
    print(f"{PAGE}: {number - bad} of {number} agree")
    sys.exit(min(1, bad))


if __name__ == "__main__":
    main()
