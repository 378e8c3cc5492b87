#!/usr/bin/env python3
"""Writes the cases of crates/cases_runs whose texts are made when they run, and what they must give, the end of its stdout: made_runs.py,
from the top of the repository.

The texts at the limits are in hostile_runs.py, with answers by hand; what noise makes of models, and where a text is cut, is answered by
model_reading.py, which shares no code with the solver."""

import sys

import hostile_runs
import noise_runs
import stored
from asked import asked
from stored import CRATE

# How many texts are made of each model: 20,007 together.
COUNT = 2223


def main():
    sys.setrecursionlimit(30000)
    out = [
        hostile_runs.write(f"{CRATE}/data/depths.txt", hostile_runs.deep()),
        hostile_runs.write(f"{CRATE}/data/limits.txt", hostile_runs.made()),
        noise_runs.write(f"{CRATE}/data/noise.txt", COUNT),
    ]
    stored.write_end("".join(out))


asked(__doc__, 0, 0)
main()
