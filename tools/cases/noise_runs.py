"""Cases of noise: thousands of texts that are models with some bytes changed, and how many of them come to each end. What each of them
must print is worked out by model_reading.py."""

from pathlib import Path

import made_texts
import model_reading
from case_lines import block, entry
from gen import DOMAINS
from small_runs import TOUR, TOUR_OF_FOUR

# What noise puts into texts.
PIECES = [
    b"\t", b"\r", b"\r\n", b"\n", b" ", b"    ", b"\xef\xbb\xbf", b"\x00", b"\x7f", b"\xc0\xaf", b"\xed\xa0\x80", b"\xf4\x90\x80\x80", b"\xc3\xa9", b"\xff",
    70 * b"[", 70 * b"{", 70 * b"(", 70 * b"- ", 210 * b"(not ", 40 * b"7", b"-" + 40 * b"9", 201 * b"n", 200 * b"n", b"4611686018427387904", b"-1", b"0.5",
    b"'", b'"', b"\\", b"#", b" # ", b": ", b":", b", ", b"- ", b"-", b"[", b"]", b"{", b"}", b"(", b")", b"&", b"*", b"!", b"%", b"@", b"`", b"?",
    b"---\n", b"...\n", b"true", b"cost", b"0", b"customer", b"name: ", b"[ 1, 2 ]", b"{ 0: 1 }", b"''", b"~", b"null",
]

PATH_OF_THREE = """\
domain: path
problem: path-3-0
object_numbers: { node: 3 }
target: { at: 0 }
table_values:
  n: 3
  a: { 0: 72, 1: 87, 2: 5 }
  b: { 0: 95, 1: 38, 2: 9 }
"""


def of_models(folder, domain="domain.yaml", problem="problem.yaml"):
    path = Path(__file__).resolve().parent.parent.parent / "models" / folder
    return [(path / name).read_text(encoding="utf-8") for name in (domain, problem)]


def models():
    """Models whose texts have no `|` and no `>`."""
    yield "a tour", TOUR, TOUR_OF_FOUR
    yield "a path", DOMAINS["path"], PATH_OF_THREE
    for folder in ("knapsack", "graph_clearing", "pickup_delivery", "talent", "tardiness", "round_tour", "deliveries"):
        yield folder.replace("_", " "), *of_models(folder)


def cases(count):
    """A title, texts, the words of `noise`, and what is to be printed."""
    for number, (title, domain, problem) in enumerate(models(), 1):
        assert not set("|>") & set(domain + problem), title
        tally = made_texts.Tally()
        for pair in made_texts.noises(domain.encode(), problem.encode(), PIECES, count, number):
            tally.add(*model_reading.run("show d p", *pair))
        wanted = f"== noise in {title}\n-- show d p, {count} texts with noise, from {number} on\n{tally.text()}"
        yield f"noise in {title}", domain, problem, f"{count} {number} show d p", wanted


def write(path, count):
    """Writes the file of cases, and returns what they must print."""
    wanted = []
    with open(path, "w", encoding="ascii") as file:
        file.writelines(entry("piece", piece) for piece in PIECES)
        for title, domain, problem, words, text in cases(count):
            file.write(f"\ncase {title}\n{block('domain', domain)}{block('problem', problem)}{entry('noise', words)}")
            wanted.append(text)
    return "".join(wanted)
