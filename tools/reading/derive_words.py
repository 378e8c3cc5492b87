"""What `derive` does with its words: potentials of a model, and its text with them."""

import os
import sys

from . import derived, linear, modes, potentials, seconds, shell
from .potential_text import Writer
from .symbols import Unknown

NAMES = ("domain.yaml", "problem.yaml")


class Limit:
    """The time of the work: a call tells how far it is, and ends it where the time is over."""

    def __init__(self, number, name="derive"):
        self.clock, self.seconds, self.name, self.doing = seconds.Clock(name, number), number, name, "the model is read"

    def __call__(self):
        if self.clock.is_over():
            raise Unknown(f"{self.seconds:g} seconds were not enough while {self.doing}")
        self.clock.tell(self.doing)

    def tell(self, doing):
        self.doing = doing
        self.clock.tell(doing)

    def left(self):
        return self.clock.left()


def positive(text, least, greatest, what):
    try:
        value = float(text)
    except ValueError:
        value = 0
    if not least <= value <= greatest:
        raise shell.Stop(f"{what} from {least:g} to {greatest:g}, and not {text[:40]!r} (--help tells more)")
    return value


def potentials_of(m, inequalities, program, limit, most, added):
    """Puts the potentials that say more than the model's own bounds into what is added. How many there are, and of what; and what all bounds say at the target before and after."""
    deriver = potentials.Deriver(inequalities, program, limit.tell)
    # a checker that stops at the first bound that it does not prove is given those without a quotient first
    made = sorted(deriver.derive(most), key=lambda potential: potential.unit > 1)
    if not made:
        raise Unknown("no potential was found that says more than the model's own bounds")
    for potential in made:
        Writer(m, inequalities, added).write(potential)
    of = f"{len(inequalities.columns)} numbers that keep {len(inequalities.rows)} inequalities"
    return len(made), of, potentials.own_bound(deriver.play, m.target), deriver.tightest(m.target, made)


def put(folder, texts):
    """Writes the two files, or prints them."""
    if folder is None:
        for name, text in zip(NAMES, texts):
            sys.stdout.write(f"# {name}\n{text.decode()}")
        return
    os.makedirs(folder, exist_ok=True)
    for name, text in zip(NAMES, texts):
        with open(os.path.join(folder, name), "wb") as file:
            file.write(text)


def written_to(folder, domain, problem, limit, make):
    """Writes a model with bounds more, as `make` puts them into what is added. How many were made: 0 where none was, and nothing is written then."""
    domain, problem = shell.bytes_of(domain), shell.bytes_of(problem)
    m = shell.model.load(domain, problem)
    added = derived.Added(domain, problem)
    try:
        count, of, before, after = make(m, added)
    except Unknown as unknown:
        limit.clock.clear()
        shell.tell(limit.name, f"no bound is made: {unknown}")
        return 0
    put(folder, derived.texts(domain, problem, added))
    limit.clock.clear()
    bounds = "1 bound is" if count == 1 else f"{count} bounds are"
    own = "there was no bound" if before is None else f"the model's own bounds say {before}"
    shell.tell(limit.name, f"{bounds} made, of {of}; at the target {own}, and all together {after}")
    return count


def made_in(folder, domain, problem, limit, most, has_tolls=False):
    """Writes a model with potentials more, or with tolls; how many were made."""

    def make(m, added):
        limit.tell("the states of the model are put into modes")
        inequalities = potentials.Inequalities(modes.Modes(m, limit), limit, has_tolls)
        return potentials_of(m, inequalities, potentials.Program(inequalities, linear.solved, limit), limit, most, added)

    return written_to(folder, domain, problem, limit, make)
