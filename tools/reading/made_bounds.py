"""What tools/check tries of bounds that are made: tools/derive, tools/bounds and tools/solve_derived, with SciPy and without."""

import os
import re
import subprocess
import sys
import tempfile

from . import linear, model

# Models, each with what all bounds say together at the target once the derived ones are there, which the linear program alone decides.
DERIVED = {
    "models/tour/time_windows.yaml models/tour/four_customers.yaml": 14,
    "models/knapsack/domain.yaml models/knapsack/problem.yaml": 134,
}
# And with what tolls and walks say there at least, and what prices and weights do.
TOLLS = {
    "models/setup_times/domain.yaml models/setup_times/problem.yaml": 280,
    "models/deliveries/domain.yaml models/deliveries/problem.yaml": 26,
    "models/round_tour/domain.yaml models/round_tour/problem.yaml": 56,
}
KNAPSACKS = {
    "models/knapsack/domain.yaml models/knapsack/problem.yaml": 134,
    "models/multi_knapsack/domain.yaml models/multi_knapsack/problem.yaml": 109,
    "models/lot_sizing/domain.yaml models/lot_sizing/problem.yaml": 331,
}
PACKINGS = {
    "models/bin_packing/domain.yaml models/bin_packing/problem.yaml": 3,
    "models/assembly_line/domain.yaml models/assembly_line/problem.yaml": 4,
}
WALKS = {
    "models/tour/time_windows.yaml models/tour/four_customers.yaml": 14,
    "models/deliveries/domain.yaml models/deliveries/problem.yaml": 26,
    "models/matrix_chain/domain.yaml models/matrix_chain/problem.yaml": 33294,
    "models/tardiness/domain.yaml models/tardiness/problem.yaml": 27,
}
STUB = """#!/bin/sh
case "$*" in
    replay*) echo "verdict legal $LEGAL" ;;
    *--budget\\ 1) for k in 1 2 3; do [ $k -gt $PROVED ] || echo "bound $k proved"; done; exit 11 ;;
    *proved*) printf 'bound 1 proved\\nbound 2 open\\npreference time open\\nsolution 14 2\\nbound 1 proved\\nverdict legal\\nbound 14\\nverdict optimal 14\\n' ;;
esac
"""
# The flow and the block forms of both files, and keys that are not there.
FORMS = [
    ("objects: [ o ]\nstate_variables: [ { name: s, type: set, object: o } ]\ntransitions:\n- { name: a, parameters: [ { name: k, object: s } ], effects: { s: (remove k s) }, cost: (+ cost 2) }\nbase_cases: [ [ (is_empty s) ] ]\n",
     "object_numbers: { o: 3 }\ntarget: { s: [ 0, 1, 2 ] }\n"),
    ("objects:\n- o\nstate_variables:\n- { name: s, type: set, object: o }\ntables:\n# a comment\n- { name: t, type: integer }\ntransitions:\n- { name: a, parameters: [ { name: k, object: s } ], effects: { s: (remove k s) }, cost: (+ cost t) }\nbase_cases:\n- - (is_empty s)\ndual_bounds: [ 0 ] # none\n",
     "object_numbers: { o: 3 }\ntarget: { s: [ 0, 1, 2 ] }\ntable_values:\n  t: 2"),
    ("objects: [ o ]\r\nstate_variables: [ { name: potential_s, type: set, object: o } ]\r\ntables: []\r\ntransitions: [ { name: a, parameters: [ { name: k, object: potential_s } ], effects: { potential_s: (remove k potential_s) }, cost: (+ cost 2) } ]\r\nbase_cases: [ [ (is_empty potential_s) ] ]\r\n",
     "object_numbers: { o: 3 }\r\ntarget: { potential_s: [ 0, 1, 2 ] }\r\ntable_values: {}\r\ndual_bounds: [ 0 ]\r\n"),
]


def run(words, **places):
    done = subprocess.run([sys.executable, os.path.join("tools", words[0]), *words[1:]], capture_output=True, stdin=subprocess.DEVNULL, check=False, env={**os.environ, **places})
    return done.stdout.decode("utf-8", "replace"), done.stderr.decode("utf-8", "replace"), done.returncode


def write(path, text):
    with open(path, "w", encoding="utf-8", newline="") as file:
        file.write(text)


def without(check, room):
    """Without the packages one line says which is wanted."""
    for module in ("scipy", "numpy"):
        os.makedirs(os.path.join(room, "none", module))
        write(os.path.join(room, "none", module, "__init__.py"), f"raise ImportError('{module} is not there')\n")
    places = {"PYTHONPATH": os.path.join(room, "none"), linear.AGAIN: "1"}
    files = next(iter(DERIVED)).split(" ")
    stub = os.path.join(room, "stub")
    write(stub, STUB)
    os.chmod(stub, 0o755)
    for words, package in ((["derive", *files], "python3-scipy"), (["bounds", "walks", *files], "python3-numpy"), (["bounds", "tolls", *files], "python3-scipy"), (["solve_derived", stub, "solve", *files], "python3-scipy")):
        out, said, status = run(words, **places)
        check.same(f"{' '.join(words[:2])} without {package}", ("", 1, True, 1), (out, said.count("\n"), package in said, status))


def texts_of(folder):
    return [os.path.join(folder, name) for name in ("domain.yaml", "problem.yaml")]


def honest(check, folder):
    """No lie is in the text, and the bounds that were made stand in front."""
    out, _, status = run(["honest", *texts_of(folder), "--program", "-"])
    check.same(f"tools/honest on {folder}", (0, True), (status, "no lie was found" in out))


def made(check, room, words, wanted, is_least=False):
    """A bound is made, says what is wanted at the target, or no less, and is true."""
    folder = os.path.join(room, "made")
    _, said, status = run([*words, "--out", folder])
    told = re.search(r"all together (-?\d+)$", said.strip())
    got = told and int(told.group(1))
    check.same(" ".join(words), (0, wanted), (status, min(got, wanted) if is_least and told else got))
    if status == 0:
        honest(check, folder)


def forms(check, room):
    """Bounds stand in front, whatever form the texts have."""
    for k, texts in enumerate(FORMS):
        for tool in (["derive"], ["bounds", "walks"], ["bounds", "tolls"]):
            files = [os.path.join(room, name) for name in ("d.yaml", "p.yaml")]
            for path, text in zip(files, texts):
                write(path, text)
            folder = os.path.join(room, "form")
            _, said, status = run([*tool, *files, "--out", folder])
            check.same(f"{tool[0]} on form {k + 1}", 0, status)
            if status == 0:
                found = [open(path, "rb").read() for path in texts_of(folder)]
                own = len(model.load(*(text.encode() for text in texts)).bounds)
                check.same(f"{tool[0]} on form {k + 1}: bounds", own + 1, len(model.load(*found).bounds))


def solved(check, room):
    """What is handed on of a program's lines: those of bounds that were made are not, and no verdict without a legal list."""
    stub, files = os.path.join(room, "stub"), next(iter(DERIVED)).split(" ")
    words = ["solve_derived", stub, "solve", *files]
    made_of = number_made(run(words, LEGAL="14", PROVED="3")[1])
    held = ["preference time open", "solution 14 2", "bound 1 proved", "verdict legal", "bound 14"]
    own = [f"bound {k - made_of} {word}" for k, word in ((1, "proved"), (2, "open")) if k > made_of]
    for cost, verdict, status in (("14", ["verdict optimal 14"], 0), ("15", [], 1)):
        out, _, ended = run(words, LEGAL=cost, PROVED="3")
        check.same(f"solve_derived, replay says {cost}", ([*own, *held, *verdict], status), (out.splitlines(), ended))
    out, said, status = run(["solve_derived", stub, "solve", "models/graph_clearing/domain.yaml", "models/graph_clearing/problem.yaml"], LEGAL="14", PROVED="3")
    check.same("solve_derived where no bound is made", (True, 0), ("no bound is made" in said, status))
    words = ["solve_derived", stub, "solve", "models/setup_times/domain.yaml", "models/setup_times/problem.yaml"]
    found = [number_made(run(words, LEGAL="14", PROVED=str(proved))[1]) for proved in (2, 1, 0)]
    check.same("solve_derived takes tolls where all are proved, or none", [2, 1, 2], found)


def number_made(said):
    """Of how many bounds that were made standard error tells."""
    found = re.search(r"of (?:the )?([0-9]+) (?:bounds )?that were made", said)
    return found and int(found.group(1))


def by_program(check, program):
    """The verdict is that of the model as written."""
    for files in DERIVED:
        wanted = subprocess.run([program, "solve", *files.split(" ")], capture_output=True, check=False).stdout.decode().splitlines()[-1]
        out, _, status = run(["solve_derived", program, "solve", *files.split(" ")])
        check.same(f"solve_derived on {files}", (wanted, 0), (out.splitlines()[-1:] and out.splitlines()[-1], status))


def all_of_them(check, program):
    with tempfile.TemporaryDirectory() as room:
        without(check, room)
        for kind, models in (("knapsacks", KNAPSACKS), ("packings", PACKINGS)):
            for files, wanted in models.items():
                made(check, room, ["bounds", kind, *files.split(" ")], wanted)
            out, said, status = run(["bounds", kind, "models/graph_clearing/domain.yaml", "models/graph_clearing/problem.yaml"])
            check.same(f"bounds {kind} of costs that are joined by max", ("", 1, True, 1), (out, said.count("\n"), "no bound is made" in said, status))
        if "python3-scipy" in run(["derive", *next(iter(DERIVED)).split(" ")])[1]:
            print("(SciPy is not there, so nothing is derived)")
            return
        for files, wanted in DERIVED.items():
            made(check, room, ["derive", *files.split(" ")], wanted)
        for kind, models in (("walks", WALKS), ("tolls", TOLLS)):
            for files, wanted in models.items():
                made(check, room, ["bounds", kind, *files.split(" ")], wanted, True)
        for tool in (["derive"], ["bounds", "walks"], ["bounds", "tolls"], ["bounds", "knapsacks"]):
            check.ends_well([*tool, *next(iter(DERIVED)).split(" "), "--out", "/proc/nowhere"])
        forms(check, room)
        solved(check, room)
        if program:
            by_program(check, program)
