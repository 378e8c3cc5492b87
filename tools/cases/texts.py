#!/usr/bin/env python3
"""Writes the cases of crates/cases_texts and what they must give: texts.py VECTORS|stored, from the top of the repository.

VECTORS is a folder with yaml_profile.json and expressions.json: lists of texts, each with its tree or expression, or
with its refusal, worked out by programs that share no code with the readers. It is not part of the repository: with the word `stored` in its place their
answers stay as they are stored. Block scalars stand in block_texts.py, also where the
table refuses them; texts that each hold one rule of the profile stand in profile_texts.py. The lines of files are worked out here."""

import json
from itertools import takewhile
from pathlib import Path

from asked import asked
from block_texts import READ, REFUSED
from case_lines import entry, escaped, unescaped_bytes
from profile_texts import TEXTS

CRATE = "crates/cases_texts"

# It stands behind the texts of the tables.
NOT_UTF8 = b"a: \xff\n"

FILES = [
    b"", b"\n", b"\n\n", b"a", b"a\n", b"a\nb", b"a\r\nb\r\n", b"\r\n", b"a\r\r\n", b"a\rb\n", b"a\r",
    b"  a b \t \n   b", b"   \n", b" \t \r\n- x", b"\t", b"\t# c\n \t#\n", b"a: b\t\n  c:\tx # y  \n",
    b"\xC3\xA9: \xE2\x82\xAC\n", b"\xEF\xBB\xBF", b"\xEF\xBB\xBFa\n b", b"\xEF\xBB\xBF\xEF\xBB\xBF\n", b"\ta: b\n",
    b"a:\n\t- b\n", b"a:\n  - b\n  \t- c\n", b"#\n\t\n\t#\n \t\tx", b"x\r\n\t\ty\r\n\tz", b"\xEF\xBB\xBF \tx", b"\t\r",
    b"a\xFFb", b"a\nbc\xC3(\n", b"a\r\n\xC3\xA9\xFF\xFF", b"ab\xE2\x82", b"a\n\xF0\x9F\x98", b"\n\x80", b"a\xC0\xAF",
    b"\xED\xA0\x80", b"\xEF\xBB", b"\xEF\xBB\xBF\xFF", b"\xEF\xBB\xBFa\n\xEF\xBB\xBF\x80", b"\tx\n\xFF", b"\t\xFF",
    b"\xFF\n\tx", b"a\n \xFFb\n\tc",
]


def spans(data):
    """The lines of a file without their ends, each with its offset."""
    at, mark = 0, b"\xef\xbb\xbf"
    if data.startswith(mark):
        at = len(mark)
    while at < len(data):
        end = data.find(b"\n", at)
        line, later = (data[at:end], end + 1) if end >= 0 else (data[at:], len(data))
        yield at, line[:-1] if end >= 0 and line.endswith(b"\r") else line
        at = later


def bad_byte(data):
    try:
        data.decode()
    except UnicodeDecodeError as error:
        return error.start


def tab_indent(data):
    for at, line in spans(data):
        rest = line.lstrip(b" \t")
        blanks = line[: len(line) - len(rest)]
        if rest and not rest.startswith(b"#") and b"\t" in blanks:
            return at + blanks.index(b"\t")


def place(data, offset):
    starts = [at for at, _ in spans(data) if at <= offset]
    if len(starts) > 0:
        return f"{len(starts)}:{offset - starts[-1] + 1}"
    return f"1:{offset + 1}"


def lines_of(data):
    faults = [(at, name) for at, name in ((bad_byte(data), "10 NotUtf8"), (tab_indent(data), "11 TabIndent")) if at is not None]
    if faults:
        at, name = min(faults)
        return f"refused {place(data, at)} {name}"
    out = []
    for number, (at, line) in enumerate(spans(data), 1):
        rest = line.lstrip(b" ")
        start = at + len(line) - len(rest)
        out.append(f"{number}:{start - at}:{start}-{start + len(rest.rstrip(b' ' + bytes([9])))}")
    return " ".join(out) or "no lines"


def tree(node):
    if "scalar" in node:
        return f"{node['at']}<{escaped(node['scalar'])}>"
    if "list" in node:
        return f"{node['at']}[{' '.join(map(tree, node['list']))}]"
    return f"{node['at']}{{{' '.join(f'{tree(key)}={tree(value)}' for key, value in node['map'])}}}"


def expression(form):
    at = form["at"]
    if "word" in form:
        return f"{at}:{escaped(form['word'])}"
    if "bars" in form:
        return f"{at}|{expression(form['bars'])}|"
    return f"{at}({' '.join(map(expression, form['list']))})"


def read(folder, name, key, shown):
    with open(f"{folder}/{name}.json", encoding="utf-8") as file:
        for case in json.load(file):
            yield case["text"].encode(), f"refused {case['refused']}" if "refused" in case else shown(case[key])


def stored_answers(key):
    """The texts of one kind as they are stored, each with its answer."""
    lines = Path(CRATE, "stdout").read_text(encoding="ascii").splitlines()
    for line, answer in zip(lines[::2], lines[1::2]):
        kind, _, text = line.split(" ", 2)
        if kind == key:
            yield unescaped_bytes(text[1:-1]), answer.strip()


def of_tables(folder):
    """The texts with trees and those with expressions, from the tables or as they are stored."""
    if folder != "stored":
        return [*read(folder, "yaml_profile", "tree", tree)], [*read(folder, "expressions", "expr", expression)]
    return [*takewhile(lambda it: it[0] != NOT_UTF8, stored_answers("yaml"))], [*stored_answers("expression")]


def main(folder):
    trees, expressions = of_tables(folder)
    blocks = {unescaped_bytes(text): answer for text, answer in READ + REFUSED}
    yaml = [("yaml", text, blocks.pop(text, answer)) for text, answer in trees]
    yaml.append(("yaml", NOT_UTF8, "refused 1:4 10 NotUtf8"))
    yaml += [("yaml", *it) for it in blocks.items()]
    yaml += [("yaml", unescaped_bytes(text), answer) for text, answer in TEXTS]
    cases = {
        "lines": [("lines", it, lines_of(it)) for it in FILES],
        "yaml": yaml,
        "expressions": [("expression", *it) for it in expressions],
    }
    out = []
    for name, rows in cases.items():
        with open(f"{CRATE}/data/{name}.txt", "w", encoding="ascii") as file:
            file.writelines(entry(key, text) for key, text, _ in rows)
        for number, (key, text, answer) in enumerate(rows, 1):
            out.append(f'{key} {number} "{escaped(text)}"\n    {answer}\n')
    with open(f"{CRATE}/stdout", "w", encoding="ascii") as file:
        file.writelines(out)


main(asked(__doc__, 1, 1, "folder or stored")[0])
