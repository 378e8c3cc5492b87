"""What the tools share as commands: words, files, errors of one line, and lines of a file with a caret."""

import argparse
import os
import signal
import subprocess
import sys

from . import model, printed, values
from .places import NAMES, Refused

TOP = os.path.dirname(os.path.dirname(os.path.dirname(os.path.abspath(__file__))))
MOST_BYTES = 16777216
WIDTH = 110


class Stop(Exception):
    """An end with one line of why."""


class Words(argparse.ArgumentParser):
    """The words of a tool: an error is one line, and status 2."""

    def __init__(self, about, **more):
        super().__init__(description=about, formatter_class=argparse.RawDescriptionHelpFormatter, allow_abbrev=False, **more)

    def error(self, message):
        raise Stop(f"{message} (--help tells more)")


def run(name, main):
    """Runs a tool: whatever ends it is told in one line, with status 2; a closed pipe and Ctrl-C end it as they end other programs."""
    sys.setrecursionlimit(30000)
    status = 2
    try:
        status = main(sys.argv[1:]) or 0
        sys.stdout.flush()
    except Stop as stop:
        tell(name, stop)
    except Refused as refused:
        what = "list" if refused.file == "list" else "model"
        tell(name, f"the {what} is refused: {refused.line_printed()}" + (f" ({refused.why})" if refused.why else ""))
    except BrokenPipeError:
        status = 128 + signal.SIGPIPE
        forget_output()
    except KeyboardInterrupt:
        status = 128 + signal.SIGINT
        tell(name, "interrupted")
    except OSError as error:
        tell(name, f"{error.filename or 'standard output'}: {error.strerror}")
        forget_output()
    except (UnicodeError, RecursionError, MemoryError) as error:
        tell(name, f"{type(error).__name__}: {error}")
    sys.exit(status)


def forget_output():
    """What was not written is not tried again."""
    os.dup2(os.open(os.devnull, os.O_WRONLY), sys.stdout.fileno())


def tell(name, what):
    print(f"{name}: {' '.join(str(what).split())}", file=sys.stderr)


def bytes_of(path):
    """The bytes of a file, or of standard input for `-`."""
    try:
        if path == "-":
            data = sys.stdin.buffer.read()
        else:
            with open(path, "rb") as file:
                data = file.read(MOST_BYTES + 1)
    except OSError as error:
        raise Stop(f"{path}: {error.strerror}") from None
    if len(data) > MOST_BYTES:
        raise Stop(f"{path}: more than {MOST_BYTES} bytes")
    return data


def model_of(domain, problem):
    return model.load(bytes_of(domain), bytes_of(problem))


def steps_of(data):
    """The lines of the last whole plan in a text with what `solve` printed; None where there is none."""
    return lines_of_steps(last_whole(printed.Output(printed.text_of(data)).solutions))


def last_whole(solutions):
    return next((one for one in reversed(solutions) if one.is_whole()), None)


def lines_of_steps(solution):
    return None if solution is None else printed.bytes_of("".join(f"{step}\n" for step in solution.steps))


def list_of(m, path):
    """The steps of a file with a list, or with what `solve` printed."""
    return list_in(m, bytes_of(path))


def list_in(m, data):
    """The same of a text. Where what `solve` printed breaks off within a plan, the one before it is taken."""
    try:
        return model.read_list(m, data)
    except Refused:
        found = printed.Output(printed.text_of(data)).solutions
        if not found:
            raise
    last = found[-1]
    if last.torn and len(last.steps) == last.length:
        steps = steps_in(m, last)
        if steps is not None and values.replayed(m, steps)[1].cost == last.cost:
            return steps
    whole = last_whole(found)
    if whole is None:
        raise Stop(f"what `solve` printed breaks off within its first plan: {len(last.steps)} of {last.length} steps are there")
    if whole is not last:
        tell(os.path.basename(sys.argv[0]), "what `solve` printed breaks off within its last plan, so the plan before that is taken")
    return model.read_list(m, lines_of_steps(whole))


def steps_in(m, solution):
    """The steps of a plan that was printed; None where one is no step of the model."""
    try:
        return model.read_list(m, lines_of_steps(solution))
    except Refused:
        return None


def bound_in(data):
    """The bound that a stopped run printed last; None where there is none."""
    return printed.Output(printed.text_of(data)).bound


def titles_of(m):
    """What the domain and the problem call themselves."""
    return [keys[name].text for name, keys in (("domain", m.d), ("problem", m.p)) if name in keys]


def gap(best, bound):
    """How far a bound is from the best cost so far, in percent of that cost."""
    return f"a gap of {100 * abs(best - bound) / abs(best):.1f} %" if best else f"a gap of {abs(bound)}"


def dypdl():
    """The command `./dypdl`, among the sources or in a folder without them."""
    beside = os.path.join(TOP, "..", "..", "bin", "dypdl")
    return os.path.abspath(beside) if os.path.isfile(beside) and not os.path.isfile(os.path.join(TOP, "dypdl")) else os.path.join(TOP, "dypdl")


def program_of(path):
    """The whole path of a program."""
    if not os.path.isfile(path):
        raise Stop(f"{path}: no such program")
    if not os.access(path, os.X_OK):
        raise Stop(f"{path}: it is no program that can be run")
    return os.path.abspath(path)


def run_program(program, words):
    """What a build of the solver prints for these words, and its status."""
    program = program_of(program)
    try:
        done = subprocess.run([program, *words], stdout=subprocess.PIPE, stderr=subprocess.DEVNULL, stdin=subprocess.DEVNULL, check=False)
    except OSError as error:
        raise Stop(f"{program}: {error.strerror}: it is no program that can be run") from None
    return done.stdout.decode("utf-8", "replace"), done.returncode


def files_in(words):
    """The command and the files among the words of the solver, by their names in refusals."""
    command, files, k, options = (words[0] if words else ""), [], 1, True
    while k < len(words):
        if options and words[k] == "--":
            options = False
        elif options and words[k].startswith("--"):
            k += 0 if "=" in words[k] else 1
        else:
            files.append(words[k])
        k += 1
    return command, dict(zip(("domain", "problem", "list"), files))


# ---- lines with a caret

def visible(text):
    """A text on one line, without control characters."""
    return "".join(c if c.isprintable() else " " if c == "\t" else "\ufffd" for c in text)


def pointed(data, line, column, last=None):
    """A line of a file with a caret under the byte of that column, up to the byte before `last`."""
    rows = (data[3:] if data.startswith(b"\xef\xbb\xbf") else data).split(b"\n")
    raw = rows[line - 1].removesuffix(b"\r") if line <= len(rows) else b""
    before = visible(raw[: column - 1].decode("utf-8", "replace"))
    under = visible(raw[column - 1 : last].decode("utf-8", "replace")) if last else ""
    text = visible(raw.decode("utf-8", "replace"))
    start, width = len(before), max(1, len(under))
    cut = max(0, start - WIDTH // 2)
    shown = (".." if cut else "") + text[cut : cut + WIDTH] + (".." if len(text) > cut + WIDTH else "")
    width = min(width, max(1, cut + WIDTH - start))
    margin = f"{line:5} | "
    return [margin + shown, " " * 5 + " | " + " " * (start - cut + 2 * bool(cut)) + "^" * width]


def pointed_form(data, node, form):
    """The line with a form of an expression, with carets under it."""
    start = node.source(form.offset)
    end = node.source((form.end or form.offset + 1) - 1)
    last = end[1] if end[0] == start[0] else None
    rows = pointed(data, start[0], start[1], last)
    if last is None:
        raw = data.split(b"\n")[start[0] - 1].rstrip()
        rows = pointed(data, start[0], start[1], len(raw))
    return rows


def refusal_names():
    return NAMES
