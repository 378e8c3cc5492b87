"""Runs of `solve --certificate on` and of `check` on what they print, worked out by hand: whole certificates, of a model without plans too,
with the nodes of each layer and of all, with the best node first, with a bound and with several workers, and each end of one that is not whole.

Each case is a title, its texts, its runs (words, output and status), and perhaps its runs of which the last line is shown
alone. A text stays until another takes its place."""

from pathlib import Path

from small_runs import CLIMB, FLIP, JUMP_BEST, JUMP_OUT, JUMP_STOPPED, STUCK, STUCK_OUT, TOUR_BEST, problem, told

# Light and heavy stand at one place. Light is at home at a cost of 5, and its bound says so; less load dominates more. So a search that knows
# no cost yet goes on from light alone, and one that knows 5 goes on from heavy alone.
SHADOW = """\
domain: shadow
state_variables:
  - name: place
    type: integer
  - name: load
    type: integer
    preference: less
transitions:
  - name: light
    preconditions:
      - (= place 0)
    effects:
      place: 1
    cost: cost
  - name: heavy
    preconditions:
      - (= place 0)
    effects:
      place: 1
      load: 1
    cost: cost
  - name: home
    preconditions:
      - (= place 1)
      - (= load 0)
    effects:
      place: -1
    cost: (+ cost 5)
{}base_cases:
  - - (= place -1)
dual_bounds:
  - (if (and (= place 1) (= load 0)) 5 0)
"""

# What heavy can do: walk to ever more places, from which there is no way home;
WANDER = """\
  - name: left
    preconditions:
      - (> place 0)
      - (= load 1)
    effects:
      place: (* 2 place)
    cost: (+ cost 1)
  - name: right
    preconditions:
      - (> place 0)
      - (= load 1)
    effects:
      place: (+ (* 2 place) 1)
    cost: (+ cost 1)
"""

# be at home at a cost of 3, so that it is not true that less load is better;
SNEAK = """\
  - name: sneak
    preconditions:
      - (= place 1)
      - (= load 1)
    effects:
      place: -1
    cost: (+ cost 3)
"""

# or meet a step whose cost has no value.
BREAK = """\
  - name: break
    preconditions:
      - (= place 1)
      - (= load 1)
    effects:
      place: 2
    cost: (+ cost (/ 6 (- place 1)))
"""

SHADOW_FROM = """\
domain: shadow
problem: one
target:
  place: 0
  load: 0
"""

SHADOW_OUT = """\
solution 5 2
light
home
pass 1 share 1 visited 2 dropped 0
verdict optimal 5
"""


def head(keep, prune, *lines):
    return "".join(f"{line}\n" for line in ("certificate 1", f"keep {keep}", f"prune {prune}", *lines))


def layers(*rows):
    """The layers of a certificate, each a list of its nodes without the word `node`."""
    return "".join(f"layer {at} {len(row)}\n" + "".join(f"node {node}\n" for node in row) for at, row in enumerate(rows))


def whole(*rows):
    return layers(*rows) + f"end {len(rows)}\n"


JUMP_HEAD = ("claim optimal 5", "steps 1", "jump")
SHADOW_HEAD = ("claim optimal 5", "steps 2", "light", "home")
START = ["- open"]


TOUR = Path("models/tour")

# What must not be, so that there is no plan from a target that is 0.
FORBIDDEN = CLIMB + "constraints:\n  - (> x 0)\n"

# The jump's cost is a bound that the target has already.
BOUNDED = CLIMB + "dual_bounds:\n  - (if (= x 0) 5 0)\n"


def solved(words, printed):
    """A run; its status is that of its verdict, whatever stands behind it."""
    return f"solve d p {words} --certificate on".split(" "), printed, 10 if "verdict infeasible" in printed else 0


def checked(title, texts, words, printed, certificate, claim):
    """A run with its certificate, and the check of all that it printed."""
    yield title, texts, [solved(words, printed + certificate)]
    yield f"{title}, checked", [("list", printed + certificate)], [("check d p l".split(" "), f"verdict certified {claim}\n", 0)]


def climbs():
    """The climb: what is kept is the same with each setting."""
    texts = [("domain", CLIMB), ("problem", problem("a", "x", 0))]
    kept = whole(START, ["0 open inc"], ["0 open inc"])
    for keep in ("layer", "all"):
        for prune in ("off", "on"):
            words = f"--keep {keep} --prune {prune}"
            yield from checked(f"a climb, {words}", texts, words, JUMP_OUT, head(keep, prune, *JUMP_HEAD) + kept, "optimal 5")
    yield "a climb, no certificate", texts, [
        ("solve d p --prune off --certificate off".split(" "), JUMP_OUT, 0),
        ("solve d p --prune off --budget 2 --certificate on".split(" "), JUMP_STOPPED, 11),
    ]


def small():
    climb = lambda x: [("domain", CLIMB), ("problem", problem("a", "x", x))]
    printed = "solution 0 0\nverdict optimal 0\n"
    yield from checked("a base target", climb(3), "--prune off", printed, head("layer", "off", "claim optimal 0", "steps 0") + whole(), "optimal 0")
    texts = [("domain", STUCK), ("problem", problem("a", "x", 0))]
    kept = whole(START, ["0 open inc"], ["0 open inc"])
    yield from checked("no plan", texts, "--prune off", STUCK_OUT, head("layer", "off", "claim infeasible") + kept, "infeasible")
    texts = [("domain", FORBIDDEN), ("problem", problem("a", "x", 0))]
    yield from checked("a target that is not allowed", texts, "--prune off", "verdict infeasible\n", head("layer", "off", "claim infeasible") + whole(), "infeasible")
    texts = [("domain", BOUNDED), ("problem", problem("a", "x", 0))]
    yield from checked("a bound that the target has", texts, "--prune on --gap on", JUMP_OUT, head("layer", "on", *JUMP_HEAD) + whole(["- cut"]), "optimal 5")


def tours():
    texts = [("domain", (TOUR / "time_windows.yaml").read_text()), ("problem", (TOUR / "four_customers.yaml").read_text())]
    text = (TOUR / "certificates" / "four_customers.txt").read_text()
    runs = [solved("--prune on", text)]
    lasts = [(f"solve d p --workers {workers} --certificate on".split(" "), "end 3\n", 0) for workers in (1, 2, 7)]
    yield "a tour", texts, runs, lasts
    yield "a tour, checked", [("list", text)], [("check d p l".split(" "), "verdict certified optimal 14\n", 0)]


def shadows():
    """Certificates whose search goes where the search for the claim did not."""
    start = ("problem", SHADOW_FROM)
    opened = head("layer", "on", *SHADOW_HEAD) + layers(START, ["0 open heavy"])
    domain = ("domain", SHADOW.format(""))
    yield from checked("a shadow that rests", [domain, start], "--prune on", SHADOW_OUT, opened + "end 2\n", "optimal 5")
    domain = ("domain", SHADOW.format(WANDER))
    rows = [START, ["0 open heavy"]]
    for width in (1, 2, 4, 8):
        rows.append([f"{at} open {way}" for at in range(width) for way in ("left", "right")])
    text = head("layer", "on", *SHADOW_HEAD)
    yield from checked("a shadow that wanders", [domain, start], "--prune on", SHADOW_OUT, text + whole(*rows), "optimal 5")
    yield "a shadow that wanders too far", [], [
        solved(f"--prune on --budget {most}", SHADOW_OUT + text + layers(*rows[:there]) + f"certificate stopped {most}\n")
        for most, there in ((2, 3), (4, 4), (10, 5))
    ]
    ending = "certificate better 3 2\nheavy\nsneak\n"
    yield "a shadow that sneaks", [("domain", SHADOW.format(SNEAK))], [solved("--prune on", SHADOW_OUT + opened + ending)]
    ending = "certificate fault ZeroDivisor at break weight after 1\nheavy\n"
    yield "a shadow that breaks", [("domain", SHADOW.format(BREAK))], [solved("--prune on", SHADOW_OUT + opened + ending)]


# Without bounds all is visited: the tour that begins with 2 and 1 comes where that with 1 and 2 is, at a cost that is worse.
ALL_TOURS = [START, ["0 open visit 1", "0 open visit 2"], ["1 open visit 3", "0 open visit 2", "1 open visit 1"], ["0 open visit 1", "1 open visit 3"]]
CUT_TOURS = [START, ["0 open visit 1", "0 open visit 2"], ["1 open visit 3"]]
TOUR_HEAD = ("claim optimal 14", "steps 4", "visit 2", "visit 3", "visit 1", "return")


def best():
    """The best node first: the nodes of all layers cover, whatever is kept."""
    kept = whole(START, ["0 open inc"], ["0 open inc"])
    climb = lambda domain, x: [("domain", domain), ("problem", problem("a", "x", x))]
    for prune in ("off", "on"):
        words = f"--engine best --prune {prune}"
        yield from checked(f"a climb, {words}", climb(CLIMB, 0), words, JUMP_BEST, head("all", prune, *JUMP_HEAD) + kept, "optimal 5")
    yield "a climb, --engine best, what is kept", [], [solved(f"--engine best --keep {keep}", JUMP_BEST + head("all", "on", *JUMP_HEAD) + kept) for keep in ("layer", "all")]
    printed = "solution 0 0\nverdict optimal 0\n"
    text = head("all", "off", "claim optimal 0", "steps 0") + whole()
    yield from checked("a base target, the best node first", climb(CLIMB, 3), "--engine best --prune off", printed, text, "optimal 0")
    text = head("all", "on", "claim infeasible") + whole()
    yield from checked("a target that is not allowed, the best node first", climb(FORBIDDEN, 0), "--engine best", "verdict infeasible\n", text, "infeasible")
    printed = told("search visited 3", "verdict infeasible")
    yield from checked("no plan, the best node first", climb(STUCK, 0), "--engine best --prune off", printed, head("all", "off", "claim infeasible") + kept, "infeasible")
    # What flips twice is where it was, and the target covers it.
    printed, text = told("search visited 2", "verdict infeasible"), head("all", "on", "claim infeasible") + whole(START, ["0 open flip"])
    texts = [("domain", FLIP), ("problem", problem("flip", "x", 0))]
    yield from checked("to and fro, the best node first", texts, "--engine best", printed, text, "infeasible")
    texts = [("domain", (TOUR / "time_windows.yaml").read_text()), ("problem", (TOUR / "four_customers.yaml").read_text())]
    for prune, visited, rows in (("on", 6, CUT_TOURS), ("off", 8, ALL_TOURS)):
        words, printed = f"--engine best --prune {prune}", TOUR_BEST.replace("visited 6", f"visited {visited}")
        yield from checked(f"a tour, {words}", texts, words, printed, head("all", prune, *TOUR_HEAD) + whole(*rows), "optimal 14")
        lasts = [(f"solve d p {words} --workers {workers} --certificate on".split(" "), f"end {len(rows)}\n", 0) for workers in (2, 7)]
        yield f"a tour, {words}, with several workers", [], [], lasts


RUNS = [*climbs(), *small(), *tours(), *shadows(), *best()]
