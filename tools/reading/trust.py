"""What a verdict rests on. The parts of a model are its dual bounds, by their places from 1, and the preferences of its variables. `solve --prune
proved` tells of each, in a line before all others, whether it is `proved` or `open`, and searches with the proved ones alone."""

import copy
import os
import subprocess

from . import printed, shell

MOST_SECONDS = 60


def parts_of(m):
    """The parts of a model, as the solver's lines name them."""
    bounds = [f"bound {k}" for k in range(1, len(m.bounds) + 1)]
    return bounds + [f"preference {v.name}" for v in m.variables if v.preference != "without"]


def told_in(m, lines):
    """Of each part whether it is proved, by the lines of parts that were printed; None where these are not lines of this model's parts."""
    told = [line.rpartition(" ") for line in lines]
    parts = parts_of(m)
    return {part: word == "proved" for part, _, word in told} if parts and [part for part, _, _ in told] == parts else None


def kept(m, told):
    """The model with its proved parts alone."""
    found = copy.copy(m)
    found.bounds = [b for b, part in zip(m.bounds, parts_of(m)) if told[part]]
    found.variables = []
    for v in m.variables:
        found.variables.append(copy.copy(v))
        if not told.get(f"preference {v.name}", True):
            found.variables[-1].preference = "without"
    return found


def named(parts):
    """Parts in words: `bounds 1 and 2 and the preference of time`."""
    bounds = [part.split(" ")[1] for part in parts if part.startswith("bound ")]
    preferences = [f"`{part.split(' ')[1]}`" for part in parts if part.startswith("preference ")]
    found = [f"bound{'s' * (len(bounds) > 1)} {joined(bounds)}"] if bounds else []
    found += [f"the preference{'s' * (len(preferences) > 1)} of {joined(preferences)}"] if preferences else []
    return " and ".join(found)


def joined(words):
    return words[0] if len(words) == 1 else ", ".join(words[:-1]) + " and " + words[-1]



class Rests:
    """What a verdict rests on: the parts that were believed and not proved, those that were proved, and a sentence for it. `prune` is the word
    behind `--prune`, where it is known; `told` says which parts are proved, where that is known."""

    def __init__(self, m, prune, told):
        parts = parts_of(m)
        self.believed, self.proved = [], []
        if not parts:
            self.words = "It rests on nothing: the model has no dual bound and no preference to believe."
        elif prune == "off":
            self.words = "It rests on nothing: with `--prune off` no dual bound and no preference is believed."
        elif prune == "proved":
            self.proved = [part for part in parts if told and told[part]]
            left = [part for part in parts if part not in self.proved]
            used = f"what was believed is proved, {named(self.proved)}" if self.proved else "no dual bound and no preference was believed"
            self.words = f"It rests on nothing: {used}" + (f"; {named(left)} {'was' if len(left) == 1 else 'were'} left out as open." if left else ".")
        else:
            self.proved = [part for part in parts if told and told[part]]
            self.believed = [part for part in parts if part not in self.proved]
            if not self.believed:
                self.words = f"It rests on nothing: what was believed is proved, {named(self.proved)}."
            else:
                also = f" ({named(self.proved)} {'is' if len(self.proved) == 1 else 'are'} proved)" if self.proved else ""
                self.words = f"It rests on {named(self.believed)}, believed without a proof{also}."

    def is_nothing(self):
        return not self.believed


def prune_of(words):
    """The word behind `--prune` among the words of the solver; `on` where none stands."""
    found = "on"
    for k, word in enumerate(words):
        if word == "--":
            break
        if word == "--prune" and k + 1 < len(words):
            found = words[k + 1]
        elif word.startswith("--prune="):
            found = word.partition("=")[2]
    return found


# ---- the program is asked

def program(given):
    """The program that a tool asks: the one that is given, or else one that is there already. None where there is none, or `-` is given."""
    chosen = given or os.environ.get("DYPDL_SOLVE")
    if chosen:
        return None if chosen == "-" else shell.program_of(chosen)
    beside = [os.path.join(shell.TOP, "..", "..", "bin", "dypdl_solve")]
    for folder in (".proved", ".unproved"):
        try:
            found = [os.path.join(shell.TOP, folder, name) for name in os.listdir(os.path.join(shell.TOP, folder))]
        except OSError:
            continue
        beside += sorted(found, key=os.path.getmtime, reverse=True)
    return next((os.path.abspath(path) for path in beside if os.path.isfile(path) and os.access(path, os.X_OK)), None)


def run(path, words, seconds):
    """What a build of the solver prints for these words within so many seconds, and its status; None for the status where it was ended."""
    try:
        child = subprocess.Popen([path, *words], stdout=subprocess.PIPE, stderr=subprocess.DEVNULL, stdin=subprocess.DEVNULL)
    except OSError as error:
        raise shell.Stop(f"{path}: {error.strerror}: it is no program that can be run") from None
    try:
        return printed.text_of(child.communicate(timeout=max(0.1, seconds))[0]), child.returncode
    except subprocess.TimeoutExpired:
        child.terminate()
        return printed.text_of(child.communicate()[0]), None
    finally:
        if child.poll() is None:
            child.kill()


def asked(m, path, domain, problem, seconds=MOST_SECONDS):
    """Of each part whether the program proves it, or in words why that is not known."""
    text, status = run(path, ["solve", "--prune", "proved", "--budget", "1", "--", domain, problem], seconds)
    if status == 2:
        return None, "the program knows no `--prune proved`"
    lines = printed.Output(text).parts
    told = told_in(m, lines)
    if told is None:
        return None, f"the program did not tell it within {seconds:.0f} seconds" if status is None else "the program tells other parts than the model has"
    return told, None
