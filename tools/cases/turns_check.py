#!/usr/bin/env python3
"""Works out what a solver prints with several workers whose turns one thread takes in order, and compares:

    python3 tools/cases/turns_check.py PROGRAM WORKERS ..

from the top of the repository, for each model of models/, with pruning and without, with the default budget and a small one.
With threads the lines before the last depend on how the workers take turns, and only the last lines have to agree; so this is
for a build without threads. It shares no code with the solver."""

import os
import sys
from collections import deque

from asked import asked
from model_search import DEFAULT_BUDGET, Search
from planning_problems import PROBLEMS
from models_check import Differences, files_of, run_program

SMALL_BUDGET = 7


def owner(problem, state, shards):
    """FNV-1a of 64 bits over the words of all values but resources, each word's low byte first. Sets have up to 64 members."""
    found = 0xCBF29CE484222325
    for place, value in enumerate(state):
        if place not in problem.resources:
            word = sum(1 << member for member in value) if isinstance(value, frozenset) else value % 2**64
            for byte in word.to_bytes(8, "little"):
                found = (found ^ byte) * 0x100000001B3 % 2**64
    return found % shards


class Shard:
    def __init__(self, shards):
        self.mailbox = deque()
        self.layer = 0  # that it collects, or else visits
        self.collects = True
        self.collected = {}  # nodes by layer
        self.marks = {}  # totals by layer
        self.waiting = []
        self.sent = [0] * shards
        self.held = None
        self.visited = self.dropped = 0
        self.is_done = False


class Turns(Search):
    """The same search with several shards, each of which takes one turn after the other."""

    def __init__(self, problem, prune, budget, workers):
        super().__init__(problem, prune, budget)
        self.workers = workers

    def one_pass(self, share):
        self.share = share
        self.shards = [Shard(self.workers) for _ in range(self.workers)]
        start = self.problem.start()
        first = self.shards[owner(self.problem, start, self.workers)]
        first.collected[0] = [(start, None, self.floor(start, None), ())]
        halted = False
        while not halted and not all(shard.is_done for shard in self.shards):
            for shard in self.shards:
                halted = halted or (not shard.is_done and self.turn(shard))
        held = None
        for shard in self.shards:
            if shard.held and (held is None or self.word(shard.held[0]) < self.word(held[0])):
                held = shard.held
        return sum(s.visited for s in self.shards), sum(s.dropped for s in self.shards), held, halted

    def turn(self, shard):
        """One turn; answers whether the budget is spent."""
        if shard.mailbox:
            self.accept(shard, *shard.mailbox.popleft())
        if shard.collects and (shard.layer == 0 or len(shard.marks.get(shard.layer, [])) == self.workers):
            if shard.layer > 0 and not any(shard.marks[shard.layer]):
                shard.is_done = True
                return False
            self.close(shard)
        if shard.waiting and not self.is_pruned(shard.waiting[0][2], self.best):
            if self.drawn >= self.budget:
                return True
            self.visit_first(shard)
        elif shard.waiting:
            shard.waiting.pop(0)
        if not shard.collects and not shard.waiting:
            shard.layer += 1
            shard.collects = True
            for other in self.shards:
                other.mailbox.append((shard.layer, None, sum(shard.sent)))
        return False

    def accept(self, shard, layer, node, total):
        if node is None:
            shard.marks.setdefault(layer, []).append(total)
        else:
            self.add(shard.collected.setdefault(layer, []), node)

    def close(self, shard):
        nodes = shard.collected.pop(shard.layer, [])
        nodes.sort(key=lambda n: (self.word(n[1] if n[2] is None else n[2]), self.word(n[1])))
        shard.waiting = nodes[: self.share]
        shard.dropped += len(nodes[self.share :])
        shard.collects = False
        shard.sent = [0] * self.workers

    def visit_first(self, shard):
        self.drawn += 1
        shard.visited += 1
        letters = []
        found = self.visit(shard.waiting.pop(0), self.best, letters.append)
        if found and (shard.held is None or self.word(found[0]) < self.word(shard.held[0])):
            shard.held = found
            self.best = min(self.best, self.word(found[0]))
        for node in letters:
            receiver = owner(self.problem, node[0], self.workers)
            shard.sent[receiver] += 1
            self.shards[receiver].mailbox.append((shard.layer + 1, node, None))


def main(program, counts):
    differences = Differences()
    for problem in PROBLEMS:
        for workers in counts:
            for prune in ("on", "off"):
                for budget in (DEFAULT_BUDGET, SMALL_BUDGET):
                    words = ["solve", *files_of(problem), "--workers", str(workers), "--prune", prune, "--budget", str(budget)]
                    wanted = Turns(problem, prune == "on", budget, workers).run()
                    differences.compare(" ".join(words), wanted, run_program(program, words))
    print(f"{differences.compared - differences.bad} of {differences.compared} agree")
    sys.exit(min(1, differences.bad))


if __name__ == "__main__":
    words = asked(__doc__, 2, None, "program", numbers=True)
    main(os.path.abspath(words[0]), [int(word) for word in words[1:]])
