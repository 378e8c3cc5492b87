#!/usr/bin/env python3
"""Runs of `check` on certificates written by hand: whole ones, texts in which a line may not stand, and what is rejected, with each reason's
fault among them. The verdicts are worked out by hand.

    python3 tools/cases/check_runs.py

from the top of the repository asks `tools/certified`, which shares no code with the solver, for each check here and in certificate_runs.py,
and says where it tells another line. The cases are written by runs.py, behind those of certificate_runs.py, in whose form they are."""

import contextlib
import importlib.machinery
import importlib.util
import io
import sys
import tempfile
from pathlib import Path

import certificate_runs
from asked import asked
from certificate_runs import JUMP_HEAD, START, TOUR, head, whole
from small_runs import CLIMB, problem

CHECK = "check d p l".split(" ")
CLIMBS = Path("models/one_variable/certificates")
TOURS = TOUR / "certificates"
MOST = 2**62 - 1


def case(title, verdict, certificate, *texts):
    """The check of one certificate. A verdict is what follows that word; all else that is told is a refusal."""
    line, status = (f"verdict {verdict}", 0) if verdict.startswith("certified") else (f"verdict {verdict}", 10)
    if verdict.startswith("list:"):
        line, status = f"refused {verdict}", 3
    return f"check: {title}", [*texts, ("list", certificate)], [(CHECK, f"{line}\n", status)]


def bad(title, line, certificate):
    """A line that may not stand."""
    return case(title, f"list:{line}:1 72 BadCertificate", certificate)


# ---- the climb's certificate, and what is made of it

WHOLE = head("layer", "off", *JUMP_HEAD) + whole(START, ["0 open inc"], ["0 open inc"])
LAST = 13  # the line `end 3`
OPTIMAL = "certified optimal 5"


def with_line(number, *lines):
    """The whole certificate with other lines, or none, in place of one."""
    rows = WHOLE.splitlines()
    rows[number - 1 : number] = lines
    return "".join(f"{row}\n" for row in rows)


def stored():
    """The certificates that stand in models/."""
    climb = [("domain", CLIMB), ("problem", problem("a", "x", 0))]
    tour = [("domain", (TOUR / "time_windows.yaml").read_text()), ("problem", (TOUR / "four_customers.yaml").read_text())]
    # Nothing covers what the second `inc` leads to, as the layer in which it stood is gone.
    yield case("a climb", OPTIMAL, (CLIMBS / "climb.txt").read_text(), *climb)
    yield case("a climb without its layer 2", "rejected 10 Step", (CLIMBS / "without_layer_2.txt").read_text())
    # The jump costs 5.
    yield case("a climb by three steps", "rejected 10 Step", (CLIMBS / "claims_6.txt").read_text())
    yield bad("a climb without its end", 13, (CLIMBS / "without_end.txt").read_text())
    # The floor behind the second visit is 13.
    yield case("a tour that is cut too early", "rejected 14 Cut", (TOURS / "cut_too_early.txt").read_text(), *tour)
    yield bad("a tour by a jump", 6, (CLIMBS / "climb.txt").read_text())
    yield case("a climb again", OPTIMAL, WHOLE, *climb)


def heads():
    """The lines in front of the layers, and those that are skipped."""
    yield bad("an empty text", 1, "")
    yield bad("another form", 1, with_line(1, "certificate 2"))
    yield bad("keep both", 1, with_line(2, "keep both"))
    yield bad("keep behind an empty line", 1, with_line(1, "certificate 1", ""))
    yield case("keep both, and then a certificate", OPTIMAL, "certificate 1\nkeep both\n" + WHOLE)
    yield case("certificate 1 twice", OPTIMAL, "certificate 1\n" + WHOLE)
    yield bad("two certificates, the first without an end", 4, "certificate 1\nkeep all\nprune on\n" + WHOLE)
    yield case("lines are counted from the first of the file", "rejected 12 Step", "\nnode - shut\n" + (CLIMBS / "without_layer_2.txt").read_text())
    yield bad("prune maybe", 3, with_line(3, "prune maybe"))
    yield bad("a claim without a cost", 4, with_line(4, "claim optimal"))
    yield bad("another claim", 4, with_line(4, "claim stopped 5"))
    yield bad("a list behind infeasible", 5, with_line(4, "claim infeasible"))
    yield bad("a list without its length", 5, with_line(5))
    yield bad("an unknown step in the claimed list", 6, with_line(6, "fly"))
    yield bad("a step with one argument too many in the claimed list", 6, with_line(6, "jump 0"))
    yield bad("a blank behind a claimed step", 6, with_line(6, "jump "))
    yield bad("a list that is shorter than its length", 7, with_line(5, "steps 2"))
    yield bad("a list that is longer than its length", 6, with_line(5, "steps 0"))


def bodies():
    """Layers, nodes, and what stands behind them."""
    yield bad("a layer without nodes", 11, with_line(11, "layer 2 0"))
    yield bad("a layer that is left out", 9, with_line(9, "layer 2 1"))
    yield bad("a layer with a node less", 11, with_line(9, "layer 1 2"))
    yield bad("a layer with a node more", 11, with_line(10, "node 0 open inc", "node 0 open inc"))
    # The text is read, and the target's node does not stand alone.
    yield case("two nodes in layer 0", "rejected 1 Target", with_line(7, "layer 0 2").replace("node - open\n", "node - open\nnode - open\n"))
    yield bad("a parent in layer 0", 8, with_line(8, "node 0 open inc"))
    yield bad("a target in layer 1", 10, with_line(10, "node - open"))
    yield bad("a parent beyond the layer before", 10, with_line(10, "node 1 open inc"))
    yield bad("a parent of 2^32", 10, with_line(10, f"node {2**32} open inc"))
    yield bad("a parent of 2^64", 10, with_line(10, f"node {2**64} open inc"))
    yield bad("an unknown step of a node", 10, with_line(10, "node 0 open fly"))
    yield bad("a node without a step", 10, with_line(10, "node 0 open"))
    yield bad("a blank behind a node's step", 10, with_line(10, "node 0 open inc "))
    yield bad("two blanks in a node", 10, with_line(10, "node 0  open inc"))
    yield bad("a tab in a node", 10, with_line(10, "node 0\topen inc"))
    yield bad("a target that is shut", 8, with_line(8, "node - shut"))
    yield bad("a node that is shut", 10, with_line(10, "node 0 shut inc"))
    yield bad("a layer with a blank behind it", 7, with_line(7, "layer 0 1 "))
    yield bad("an empty line between layers", 9, with_line(9, "", "layer 1 1"))
    yield bad("an end with too few layers", LAST, with_line(LAST, "end 2"))
    yield bad("an end with 2^32 layers more", LAST, with_line(LAST, f"end {2**32 + 3}"))
    yield bad("an empty line in place of the end", LAST, with_line(LAST, ""))
    yield bad("a certificate that breaks off", LAST, with_line(LAST, "certificate stopped 3"))
    yield case("blank lines behind the end", OPTIMAL, WHOLE + "\n  \n\t\n \t\n\n")
    yield bad("a line behind the end", LAST + 1, WHOLE + "end 3\n")
    yield bad("a line behind the end and blank lines", LAST + 3, WHOLE + "\n \n#\n")


def numbers():
    """No zero stands in front, and a minus only at a cost."""
    for line, text in ((4, "claim optimal 05"), (4, "claim optimal -05"), (5, "steps 01"), (7, "layer 0 01"), (7, "layer 00 1"), (9, "layer 01 1"),
                       (10, "node 00 open inc"), (LAST, "end 03")):
        yield bad(f"a zero in front: {text}", line, with_line(line, text))
    for line, text in ((4, "claim optimal +5"), (5, "steps +1"), (5, "steps -1"), (7, "layer 0 +1"), (10, "node +0 open inc"), (10, "node -1 open inc")):
        yield bad(f"a sign: {text}", line, with_line(line, text))
    # As many nodes, or steps, as no text has: the first line that is none is bad.
    yield bad("a layer of 10^40 nodes", 9, with_line(7, f"layer 0 {10**40}"))
    yield bad("a list of 10^40 steps", 7, with_line(5, f"steps {10**40}"))
    yield bad("a layer of 2^64 nodes and one more", 11, with_line(9, f"layer 1 {2**64 + 1}"))
    yield bad("layer 2^32 and one more", 9, with_line(9, f"layer {2**32 + 1} 1"))
    # A cost is read up to the greatest and the least one. The list costs 5.
    for cost in (MOST, -MOST):
        yield case(f"a claim of {cost}", "rejected 4 Claim", with_line(4, f"claim optimal {cost}"))
        beyond = cost + (1 if cost > 0 else -1)
        yield bad(f"a claim of {beyond}", 4, with_line(4, f"claim optimal {beyond}"))
    yield bad("a claim of 10^40", 4, with_line(4, f"claim optimal {10**40}"))
    # A number of 64 bits would take this for 5.
    yield bad("a claim of 2^64 and 5", 4, with_line(4, f"claim optimal {2**64 + 5}"))


def line_ends():
    mark = "\ufeff"
    yield case("lines that end with a carriage return", OPTIMAL, WHOLE.replace("\n", "\r\n"))
    yield case("some lines that end with a carriage return", OPTIMAL, WHOLE.replace("open\n", "open\r\n").replace("inc\n", "inc\r\n"))
    yield case("a last line without an end", OPTIMAL, WHOLE.removesuffix("\n"))
    # This one belongs to the line.
    yield bad("a carriage return at the end of the text", LAST, WHOLE.removesuffix("\n") + "\r")
    yield bad("two carriage returns", 6, with_line(6, "jump\r\r"))
    yield bad("a byte order mark", 1, mark + WHOLE)
    yield case("a byte order mark in a line that is skipped", OPTIMAL, f"{mark}\n" + WHOLE)
    # A byte that is no UTF-8 goes before all lines that may not stand.
    byte = "\udcff"
    not_utf8 = lambda place: f"list:{place} 10 NotUtf8"
    yield case("a byte behind a bad line", not_utf8("10:16"), with_line(6, "fly").replace("layer 1 1\nnode 0 open inc", f"layer 1 1\nnode 0 open inc{byte}"))
    yield case("a byte in a line that is skipped", not_utf8("1:2"), f"a{byte}\n" + WHOLE)
    yield case("a byte behind the end and a bad line", not_utf8("15:1"), WHOLE + f"end 3\n{byte}\n")


# ---- what has no value: a model of one variable, which is 0 in the target, and of a step that sets it to 1

# It is 6 at 0, and has no value at 1.
LATE = "(/ 6 (- 1 x))"
# It has no value at 0.
EARLY = "(/ 6 x)"


def transition(name, condition, effect, weight, forced=False):
    lines = [f"  - name: {name}", f"    preconditions: [ {condition} ]", f"    effects: {{ x: {effect} }}", f"    cost: (+ cost {weight})"]
    return "\n".join(lines + ["    forced: true"] * forced) + "\n"


def base(condition, cost=0):
    return f"  - conditions: [ {condition} ]\n    cost: {cost}\n"


def model(condition="(= x 0)", effect="1", weight="2", steps="", constraints=(), bases=(), bounds=()):
    """The model: it ends at 9, to which a step among `steps` may lead."""
    lists = [("constraints", constraints), ("dual_bounds", bounds)]
    return (
        "domain: a\nstate_variables: [ { name: x, type: integer } ]\ntransitions:\n"
        + steps
        + transition("go", condition, effect, weight)
        + "base_cases:\n"
        + "".join([base("(= x 9)"), *bases])
        + "".join(f"{key}:\n" + "".join(f"  - {it}\n" for it in items) for key, items in lists if items)
    )


JUMP = transition("jump", "(= x 0)", "9", "5")
# A step whose precondition has no value at 0.
MUST = transition("must", f"(= {EARLY} 1)", "9", "1", True)


def given(title, verdict, certificate, **parts):
    return case(f"a fault, {title}", verdict, certificate, ("domain", model(**parts)), ("problem", problem("a", "x", 0)))


def claiming(cost, *steps, prune="off"):
    return head("layer", prune, f"claim optimal {cost}", f"steps {len(steps)}", *steps)


NO_PLAN = head("layer", "off", "claim infeasible")
ALONE = NO_PLAN + whole(START)
TWO = NO_PLAN + whole(START, ["0 open go"])
CERTIFIED = "certified infeasible"


def targets():
    """The target's constraints and base cases."""
    empty, twice = NO_PLAN + whole(), NO_PLAN + whole([*START, *START])
    faults = {
        "constraint": {"constraints": [f"(< {EARLY} 5)"]},
        "base condition": {"bases": [base(f"(= {EARLY} 1)")]},
        "base cost": {"bases": [base("(= x 0)", EARLY)]},
    }
    for name, parts in faults.items():
        # Where layer 0 is its node alone, that node's line is the first that fails.
        yield given(f"the target's {name}", "rejected 1 Fault", empty, **parts)
        yield given(f"the target's {name}, with its node", "rejected 6 Fault", ALONE, **parts)
        yield given(f"the target's {name}, with its node twice", "rejected 1 Fault", twice, **parts)
    early = f"(< {EARLY} 5)"
    yield given("the target's constraint behind a false one", CERTIFIED, empty, constraints=["(> x 0)", early])
    yield given("the target's constraint before a false one", "rejected 1 Fault", empty, constraints=[early, "(> x 0)"])
    bases = {"bases": [base("(= x 0)"), base(f"(= {EARLY} 1)")]}
    yield given("the target's second base case", "rejected 1 Fault", claiming(0) + whole(), **bases)
    yield given("the target's second base case, with its node", "rejected 4 Fault", claiming(0) + whole(START), **bases)


def claims():
    """The claimed list: a step to 1, where it ends."""
    ends = [base("(= x 1)")]
    one = lambda cost: claiming(cost, "go") + whole(START)
    yield given("none in the claimed list", "certified optimal 2", one(2), bases=ends)
    spots = {
        "precondition": {"condition": f"(= {EARLY} 1)"},
        "weight": {"weight": EARLY},
        "effect": {"effect": EARLY},
        "constraint": {"constraints": [f"(!= {LATE} 9)"]},
        "base condition": {"bases": [*ends, base(f"(= {LATE} 9)")]},
        "base cost": {"bases": [base("(= x 1)", LATE)]},
        "forced step": {"steps": MUST},
    }
    for name, parts in spots.items():
        yield given(f"the claimed list's {name}", "rejected 4 Fault", one(2), **{"bases": ends, **parts})
    yield given("the claimed list's total", "rejected 4 Fault", one(MOST), bases=[base("(= x 1)", MOST)])
    two = claiming(MOST, "go", "go") + whole(START)
    yield given("the claimed list's cost", "rejected 4 Fault", two, condition="(< x 2)", effect="(+ x 1)", weight=MOST, bases=[base("(= x 2)")])
    # What is not legal before there is a fault.
    yield given("behind the claimed list's end", "rejected 4 Claim", claiming(6, "go", "go") + whole(START), condition="true", weight=LATE, bases=ends)
    yield given("behind a false precondition of the claimed list", "rejected 4 Claim", one(2), condition=f"(= x 1), (= {EARLY} 1)", bases=ends)


def nodes():
    """The list of a node. With a cut target the step to it is looked at there first."""
    yield given("a node's precondition", "rejected 8 Fault", TWO, condition=f"(= {EARLY} 1)")
    yield given("a node's precondition behind a false one", "rejected 8 Node", TWO, condition=f"(= x 1), (= {EARLY} 1)")
    yield given("a forced step before a node's", "rejected 8 Fault", TWO, steps=MUST)
    # Behind the forced step of the node another one stands, which is not looked at.
    yield given("a forced step behind a node's", "rejected 8 Node", NO_PLAN + whole(START, ["0 open may"]), steps=transition("may", "(= x 1)", "9", "1", True) + MUST)
    certificate = claiming(5, "jump", prune="on") + whole(["- cut"], ["0 open go"])
    cut = {"steps": JUMP, "bounds": [5]}
    yield given("none at a node behind a cut one", "certified optimal 5", certificate, **cut)
    spots = {
        "weight": {"weight": EARLY},
        "effect": {"effect": EARLY},
        "constraint": {"constraints": [f"(!= {LATE} 9)"]},
        "base condition": {"bases": [base(f"(= {LATE} 9)")]},
        "base cost": {"bases": [base("(= x 1)", LATE)]},
    }
    for name, parts in spots.items():
        yield given(f"a node's {name}", "rejected 10 Fault", certificate, **cut, **parts)


def cuts():
    """The bounds of a node that is cut."""
    only = lambda prune: claiming(5, "jump", prune=prune) + whole(["- cut"])
    two = claiming(5, "jump", prune="on") + whole(["- cut"], ["0 cut go"])
    yield given("the target's bound", "rejected 8 Fault", only("on"), steps=JUMP, bounds=[EARLY])
    yield given("the target's second bound", "rejected 8 Fault", only("on"), steps=JUMP, bounds=[5, EARLY])
    yield given("a bound that is not used", "rejected 8 Cut", only("off"), steps=JUMP, bounds=[EARLY])
    yield given("a cut node's bound", "rejected 10 Fault", two, steps=JUMP, bounds=[LATE])
    # A floor may be any number.
    yield given("none in a floor beyond the costs", "certified optimal 5", two, steps=JUMP, bounds=[f"(if (= x 0) 5 {MOST})"])


def steps():
    """The steps of an open node. One that has a fault is not covered, also where a node stands where it leads."""
    yield given("none at an open node", CERTIFIED, TWO)
    spots = {
        "weight": {"weight": EARLY},
        "effect": {"effect": EARLY},
        "constraint": {"constraints": [f"(!= {LATE} 9)"]},
        "base condition": {"bases": [base(f"(= {LATE} 9)")]},
        "base cost": {"bases": [base("(= x 1)", LATE)]},
        "total": {"bases": [base("(= x 1)", MOST)]},
    }
    for name, parts in spots.items():
        yield given(f"an open node's {name}", "rejected 6 Fault", TWO, **parts)
    yield given("an open node's cost", "rejected 8 Fault", TWO, condition="(< x 2)", effect="(+ x 1)", weight=MOST)
    bounded = lambda prune: head("layer", prune, "claim infeasible") + whole(START, ["0 open go"])
    yield given("the bound where an open node leads", "rejected 6 Fault", bounded("on"), bounds=[LATE])
    yield given("a bound where an open node leads that is not used", CERTIFIED, bounded("off"), bounds=[LATE])
    yield given("a constraint behind a false one", CERTIFIED, ALONE, constraints=["(< x 1)", f"(!= {LATE} 9)"])
    # A step that is not enabled since its precondition has no value, and all steps behind a forced one of this kind.
    yield given("an open node's precondition", CERTIFIED, ALONE, condition=f"(= {EARLY} 1)")
    yield given("a forced step of an open node", CERTIFIED, ALONE, steps=MUST)
    certificate = claiming(1, "end") + whole(START)
    yield given("behind an enabled forced step", "certified optimal 1", certificate, steps=transition("end", "true", "9", "1", True), weight=EARLY)
    # Of two steps that fail the first tells.
    uncovered, faulty = transition("up", "true", "5", "1"), transition("down", "true", EARLY, "1")
    yield given("before a step that nothing covers", "rejected 6 Fault", ALONE, steps=faulty)
    yield given("behind a step that nothing covers", "rejected 6 Step", ALONE, steps=uncovered + faulty)


# An element is no number below 0 and none of 33 bits.
ELEMENT = """\
domain: a
objects: [ place ]
state_variables: [ { name: x, type: element, object: place } ]
transitions:
  - name: go
    effects: { x: REPLACED }
base_cases:
  - [ (= x 9) ]
"""


def elements():
    start = ("problem", "domain: a\nproblem: one\nobject_numbers: { place: 2 }\ntarget: { x: 0 }\n")
    for value, verdict in ((-1, "rejected 6 Fault"), (2**32, "rejected 6 Fault"), (2**32 - 1, "rejected 6 Step")):
        yield case(f"a fault, an element of {value}", verdict, ALONE, ("domain", ELEMENT.replace("REPLACED", str(value))), start)


RUNS = [*stored(), *heads(), *bodies(), *numbers(), *line_ends(), *targets(), *claims(), *nodes(), *cuts(), *steps(), *elements()]


def certified():
    """The program `tools/certified`, as a function of its words."""
    loader = importlib.machinery.SourceFileLoader("certified", "tools/certified")
    module = importlib.util.module_from_spec(importlib.util.spec_from_loader("certified", loader))
    loader.exec_module(module)
    return module.main


def main():
    ask, standing, counted, wrong = certified(), {}, 0, 0
    with tempfile.TemporaryDirectory() as folder:
        files = {key: Path(folder, key) for key in ("domain", "problem", "list")}
        for title, texts, runs, *_ in [*certificate_runs.RUNS, *RUNS]:
            standing.update(texts)
            for words, wanted, status in runs:
                if words != CHECK:
                    continue
                for key, file in files.items():
                    file.write_bytes(standing[key].encode("utf-8", "surrogateescape"))
                with contextlib.redirect_stdout(io.StringIO()) as out:
                    got = ask([str(file) for file in files.values()])
                counted += 1
                if (out.getvalue(), got) != (wanted, status):
                    wrong += 1
                    print(f"--- {title}, wanted:\n{wanted}status {status}\n--- came:\n{out.getvalue()}status {got}")
    print(f"{counted - wrong} of {counted} checks agree")
    sys.exit(min(1, wrong))


if __name__ == "__main__":
    asked(__doc__, 0, 0)
    main()
