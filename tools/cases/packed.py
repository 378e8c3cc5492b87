#!/usr/bin/env python3
"""States of sets at the edges of words, packed and unpacked, and their owners, for cases_search.

`packed.py data` writes the cases, which stand at the end of crates/cases_search/data/parts.txt, and `packed.py stdout` what they
print. A state is a dictionary here, a set a set of numbers, and the owner FNV-1a over the bytes of the signature as its definition says."""

import sys

COUNTS = [1, 63, 64, 65, 1024, 4096]
SHARDS = [2, 7, 64]

HEAD = [
    "# Sets of 1 to 4,096 members beside one of 65, with members at the ends of words; the first variable is a resource. Each state is",
    "# packed after each step, and unpacked where it is shown. tools/cases/packed.py wrote these cases and their answers.",
]

# A line feed, as a file of cases writes it.
LINE = "\\n"

# The variables stand in this order: sets of two object types lie among numbers, so that their words lie in several rows.
NAMES = ["r", "s", "a", "few", "e", "v"]

DOMAIN = """\
domain: packed
objects: [ thing, other ]
state_variables:
  - { name: r, type: integer, preference: less }
  - { name: s, type: set, object: thing }
  - { name: a, type: integer }
  - { name: few, type: set, object: other }
  - { name: e, type: element, object: thing }
  - { name: v, type: set, object: thing }
transitions:
  - { name: swap, effects: { s: v, v: s } }
  - { name: join, effects: { s: (union s v) } }
  - { name: drop, effects: { v: (remove LAST v), few: (remove 63 few) } }
  - { name: add, effects: { v: (add LAST v), few: (add 64 few) } }
  - { name: lack, effects: { few: (~ few) } }
  - { name: down, effects: { a: (- a 3), e: LAST } }
  - { name: spend, effects: { r: (+ r 1) } }
base_cases:
  - - (= r 9)
"""

# Each is a way of steps from the target on.
WAYS = [
    [],
    ["swap"],
    ["join"],
    ["drop"],
    ["drop", "swap"],
    ["add", "down"],
    ["lack"],
    ["lack", "swap", "join", "down", "spend"],
    ["spend", "spend"],
]


def target(count):
    """Members at the ends of words, and the last one."""
    edges = sorted({m for m in (0, 1, 62, 63, 64, 127, 128, 1000, count - 1) if m < count})
    return {
        "r": 0,
        "s": set(edges[::2]),
        "a": 1,
        "few": {0, 63, 64},
        "e": 0,
        "v": set(edges[1::2]),
    }


def after(state, step, count):
    """The state that a step leads to."""
    new = dict(state)
    last = count - 1
    if step == "swap":
        new["s"], new["v"] = state["v"], state["s"]
    elif step == "join":
        new["s"] = state["s"] | state["v"]
    elif step == "drop":
        new["v"], new["few"] = state["v"] - {last}, state["few"] - {63}
    elif step == "add":
        new["v"], new["few"] = state["v"] | {last}, state["few"] | {64}
    elif step == "lack":
        new["few"] = set(range(65)) - state["few"]
    elif step == "down":
        new["a"], new["e"] = state["a"] - 3, last
    elif step == "spend":
        new["r"] = state["r"] + 1
    return new


def signature(state, count):
    """The bytes of the words of all values but that of the resource r."""
    out = b""
    for name in NAMES[1:]:
        value = state[name]
        if isinstance(value, set):
            size = -(-(65 if name == "few" else count) // 64)
            out += sum(1 << m for m in value).to_bytes(8 * size, "little")
        else:
            out += value.to_bytes(8, "little", signed=True)
    return out


def owner(state, count, shards):
    """FNV-1a of 64 bits, modulo the number of shards."""
    mixed = 0xCBF29CE484222325
    for byte in signature(state, count):
        mixed = (mixed ^ byte) * 0x100000001B3 % 2**64
    return mixed % shards


def shown(value):
    return str(sorted(value)) if isinstance(value, set) else str(value)


def problem(count):
    start = target(count)
    values = ", ".join(f"{name}: {shown(start[name]).replace('[', '[ ').replace(']', ' ]')}" for name in NAMES)
    return f"domain: packed\nproblem: packed\nobject_numbers: {{ thing: {count}, other: 65 }}\ntarget: {{ {values} }}\n"


def block(key, text):
    return key + "\n" + "".join(f"| {line}\n" for line in text.splitlines())


def texts(state):
    return " ".join(f"{name}={shown(state[name])}" for name in NAMES)


def of_count(count):
    """The commands of one case, and what they print."""
    data, told = [], []

    def way(steps):
        state = target(count)
        for step in steps:
            state = after(state, step, count)
        data.append(f"path {LINE.join(steps)}".rstrip())
        told.append(f"path: {texts(state)}")
        return state

    for steps in WAYS:
        state = way(steps)
        for shards in SHARDS:
            data.append(f"owner {shards}")
            told.append(f"owner {shards}: {owner(state, count, shards)}")
    # The same state again is covered, and so is the one with more of the resource.
    for steps, told_of_it in [([], "kept, 1"), (["swap"], "kept, 2"), ([], "covered, 2"), (["spend"], "covered, 2")]:
        way(steps)
        data.append("add 1 none")
        told.append(f"add 1 none: {told_of_it} held")
    data.append("take 9")
    told.append("take 9: least floor none, 0 held")
    for state in (target(count), after(target(count), "swap", count)):
        told.append(f"    kept {texts(state)} cost 1 floor none parent none copy equal")
    return data, told


def cases():
    """The cases, and what they print."""
    data = ["", *HEAD]
    told = []
    for count in COUNTS:
        commands, answers = of_count(count)
        name = f"packed states of sets of {count} members"
        data += [f"case {name}", block("domain", DOMAIN.replace("LAST", str(count - 1))) + block("problem", problem(count)) + "prune on", *commands]
        told += [f"== {name}, prune on", *answers]
    return "\n".join(data) + "\n", "\n".join(told) + "\n"


if __name__ == "__main__":
    wanted = sys.argv[1] if len(sys.argv) > 1 else ""
    if wanted not in ("data", "stdout"):
        sys.exit(__doc__)
    sys.stdout.write(cases()[wanted == "stdout"])
