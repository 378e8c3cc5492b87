"""Certificates: `Reader(model, data).cert()` gives what a text says, or its first refusal; `checked` gives None where the certificate shows
its claim, or shows it in a part, and else the first line, in the order of the text, at which something fails."""

import re

from .expressions import LARGEST
from .model import lines_of, step_of
from .places import Refused
from .values import Fault, Play, replayed

NUMBER = "(0|[1-9][0-9]*)"
NO_LEGAL_LIST = 2**64 - 1  # a word above those of all costs
MOST_PARTS = 4096


class Cert:
    """What the lines of a certificate say. `first` is the line `certificate 1`; the claim stands three lines below. `cost` is None where
    no list is to be legal. Each layer is the line that says its size, and its nodes: the place of the parent in the layer before, the
    step, and whether the node is cut. The target's node has no parent and no step."""

    def __init__(self, first, keeps_all, prune, cost, steps, layers):
        self.first, self.keeps_all, self.prune, self.cost, self.steps, self.layers = first, keeps_all, prune, cost, steps, layers

    def claim(self):
        return "infeasible" if self.cost is None else f"optimal {self.cost}"

    def nodes(self, layer):
        return self.layers[layer][1] if layer < len(self.layers) else []


def bad(why, line):
    raise Refused(72, line, 1, None, why).of("list")


def number(digits):
    """A number that a line says; one of more than twenty digits is beyond all that a text can have."""
    return int(digits) if len(digits) <= 20 else 10**20


class Reader:
    """Reads the lines from the first on: `at` is how many are read."""

    def __init__(self, model, data):
        self.model, self.rows, self.at = model, lines_of(data), 0

    def line(self, form, wanted):
        """The parts of the next line, which must be of this form."""
        ended = self.at == len(self.rows)
        found = None if ended else re.fullmatch(form, self.rows[self.at])
        if not found:
            bad(f"{wanted} must stand here" + ", and the text ends before" * ended, self.at + 1)
        self.at += 1
        return found.groups()

    def named(self, text):
        """The step that the line just read names."""
        try:
            return step_of(self.model, text)
        except Refused as refused:
            return bad(refused.why, self.at)

    def head(self):
        for k in range(len(self.rows) - 1):
            if self.rows[k] == "certificate 1" and self.rows[k + 1] in ("keep layer", "keep all"):
                self.at = k + 2
                return k + 1, self.rows[k + 1] == "keep all"
        return bad("there is no line `certificate 1` with `keep layer` or `keep all` right behind it", 1)

    def claim(self):
        (text,) = self.line("claim (?:infeasible|optimal (0|-?[1-9][0-9]*))", "`claim infeasible`, or `claim optimal` with a cost,")
        if text is None:
            return None, []
        if len(text) > 20 or abs(int(text)) > LARGEST:
            bad(f"a cost lies in {-LARGEST} to {LARGEST}", self.at)
        (count,) = self.line(f"steps {NUMBER}", "`steps` with the length of the claimed list")
        return int(text), [self.named(*self.line("(.*)", "a step of the claimed list")) for _ in range(number(count))]

    def node(self, before):
        """A node behind a layer of so many, or that of the target."""
        if before is None:
            return None, None, self.line("node - (open|cut)", "the target's node, `node - open` or `node - cut`,") == ("cut",)
        parent, flag, text = self.line(f"node {NUMBER} (open|cut) (.*)", "`node`, the place of its parent, `open` or `cut`, and its step")
        if number(parent) >= before:
            bad(f"the parent stands in the layer before, which has the places 0 to {before - 1}", self.at)
        return int(parent), self.named(text), flag == "cut"

    def layers(self):
        layers, before = [], None
        while True:
            this = len(layers)
            (size,) = self.line(f"end {this}|layer {this} ([1-9][0-9]*)", f"`layer {this}` with its number of nodes, or `end {this}`,")
            if size is None:
                return layers
            layers.append((self.at, [self.node(before) for _ in range(number(size))]))
            before = number(size)

    def cert(self):
        first, keeps_all = self.head()
        (prune,) = self.line("prune (on|off)", "`prune on` or `prune off`")
        cert = Cert(first, keeps_all, prune == "on", *self.claim(), self.layers())
        for k in range(self.at, len(self.rows)):
            if self.rows[k].strip(" \t"):
                bad("nothing but blank lines may stand behind `end`", k + 1)
        return cert


class Rejected(Exception):
    """What fails at a line, and in words why: of a step that was looked at, the state with its cost so far where it leads, or a fault. Where
    the node's own list is at fault, that step is its last one, and `leads` is false."""

    def __init__(self, reason, why=None, step=None, there=None, fault=None):
        super().__init__(reason)
        self.reason, self.why, self.step, self.there, self.fault = reason, why, step, there, fault
        self.line, self.leads = None, True


class Part:
    """One of `count` parts of a check, from 1 on. It has every count-th place in the text, which counts the nodes of all layers from 0."""

    def __init__(self, index, count):
        self.index, self.count = index, count

    @classmethod
    def named(cls, text):
        """The part that `2/3` names; None where a text names none."""
        found = re.fullmatch("([0-9]{1,20})/([0-9]{1,20})", text)
        index, count = map(int, found.groups()) if found else (0, 0)
        return cls(index, count) if 1 <= index <= count <= MOST_PARTS else None

    def has(self, place):
        return place % self.count == self.index - 1


class Checker:
    def __init__(self, model, cert, part):
        self.model, self.cert, self.part, self.play, self.line = model, cert, part, Play(model), None
        self.claimed = NO_LEGAL_LIST if cert.cost is None else self.play.word(cert.cost)
        resources = [v for v in model.variables if cert.prune and v.preference != "without"]
        self.signs = [(v.place, 1 if v.preference == "less" else -1) for v in resources]
        self.others = [v.place for v in model.variables if v not in resources]

    def is_high(self, cost):
        """Whether a total or a floor is there and is no better than the claim."""
        return cost is not None and self.play.word(cost) >= self.claimed

    def floor(self, state, cost):
        """The cost so far joined with the tightest dual bound; None where there are no floors."""
        bound = self.play.bound(state) if self.cert.prune else None
        return None if bound is None else self.play.join(cost, bound)

    def why_low(self, floor):
        if floor is not None:
            return f"its floor {floor} is better than the claim"
        return "there is no dual bound here, so there are no floors" if self.cert.prune else "there are no floors with `prune off`"

    def traits(self, state, cost):
        """What is the same in a node that covers; and what is at least as good, each the lesser the better: cost so far and resources."""
        return tuple([state[k] for k in self.others]), (self.play.word(cost), *[state[k] * sign for k, sign in self.signs])

    def is_covered(self, covering, state, cost):
        key, merits = self.traits(state, cost)
        return any(no_worse(other, merits) for other in covering.get(key, ()))

    def cover(self, covering, nodes):
        for here in nodes:
            if not isinstance(here, Rejected) and not self.is_covered(covering, *here):
                key, merits = self.traits(*here)
                covering[key] = [other for other in covering.get(key, ()) if not no_worse(merits, other)] + [merits]

    def entered(self, state, cost, step=None):
        """A state with its cost so far, which must be allowed and not base."""
        forbidding = self.play.forbidding(state)
        if forbidding or self.play.base_cost(state) is not None:
            why = f"constraint {forbidding[0]} is false in it" if forbidding else "a base case holds in it, so that a list ends there"
            raise Rejected("Node", why, step, (state, cost))
        return state, cost

    def stepped(self, state, cost, step):
        """Where a step leads, which must be considered and enabled."""
        forced = self.play.forced_before(step, state)
        if forced:
            raise Rejected("Node", f"the forced step `{forced.text}` is enabled, so it is the only one", step)
        if self.play.disabling(step, state):
            raise Rejected("Node", "it is not enabled there", step)
        _, cost, state = self.play.after(step, state, cost)
        return self.entered(state, cost, step)

    def stand(self, node, before):
        """Where the list of a node leads, from where those of the layer before lead; or why it leads nowhere."""
        parent, step, _ = node
        try:
            if step is None:
                return self.entered(self.model.target, None)
            here = before[parent]
            return here if isinstance(here, Rejected) else self.stepped(*here, step)
        except Fault as fault:
            return Rejected("Fault", None, step, None, fault)
        except Rejected as rejected:
            return rejected

    def test_target(self):
        if len(self.cert.nodes(0)) == 1 or self.play.forbidding(self.model.target):
            return
        base = self.play.base_cost(self.model.target)
        if base is None:
            raise Rejected("Target", "the target is allowed and no base case holds in it, so layer 0 must be its node alone")
        if not self.is_high(base):
            raise Rejected("Target", f"the target is base, and its base cost {base} is better than the claim")

    def test_claim(self):
        stop = replayed(self.model, self.cert.steps)[1]
        if stop.fault:
            raise stop.fault
        if stop.cost != self.cert.cost:
            raise Rejected("Claim", f"after {stop.done} steps {stop.why}" if stop.reason else f"the claimed list costs {stop.cost}")

    def test_node(self, node, here, covering, looked):
        """What is asked at the line of a node. The steps from it, if it is open, are looked at or are not."""
        if isinstance(here, Rejected):
            here.leads = False
            raise here
        if not node[2]:
            if looked:
                self.test_steps(*here, covering)
        elif not self.is_high(self.floor(*here)):
            raise Rejected("Cut", self.why_low(self.floor(*here)), None, here)

    def test_steps(self, state, cost, covering):
        for step in self.play.steps_from(state):
            try:
                self.test_step(*self.play.after(step, state, cost)[1:], step, covering)
            except Fault as fault:
                raise Rejected("Fault", None, step, None, fault) from None

    def test_step(self, cost, state, step, covering):
        if self.play.forbidding(state):
            return
        base = self.play.base_cost(state)
        if base is not None:
            total = self.play.ranged(self.play.join(cost, base), "total", None, "the total")
            if not self.is_high(total):
                raise Rejected("Step", f"a base case holds there, and the total {total} is better than the claim", step, (state, cost))
            return
        floor = self.floor(state, cost)
        if not self.is_high(floor) and not self.is_covered(covering, state, cost):
            raise Rejected("Step", f"no node covers it, and {self.why_low(floor)}", step, (state, cost))

    def lines(self):
        cert, self.line = self.cert, self.cert.first
        self.test_target()
        self.line += 3
        if cert.cost is not None:
            self.test_claim()
        passed, covering, standing = 0, {}, [self.stand(node, ()) for node in cert.nodes(0)]
        self.cover(covering, standing)
        for k, (above, nodes) in enumerate(cert.layers):
            covering = covering if cert.keeps_all else {}
            following = [self.stand(node, standing) for node in cert.nodes(k + 1)]
            self.cover(covering, following)
            for place, (node, here) in enumerate(zip(nodes, standing)):
                self.line = above + 1 + place
                self.test_node(node, here, covering, self.part.has(passed + place))
            passed, standing = passed + len(nodes), following


def no_worse(merits, others):
    return all(a <= b for a, b in zip(merits, others))


def checked(model, cert, part=None):
    """None where the certificate shows its claim, or does so in the part, or else what fails at the first line."""
    checker = Checker(model, cert, part or Part(1, 1))
    try:
        checker.lines()
    except (Fault, Rejected) as met:
        rejected = met if isinstance(met, Rejected) else Rejected("Fault", None, None, None, met)
        rejected.line = checker.line
        return rejected
    return None
