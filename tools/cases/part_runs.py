"""Runs of the parts of checks, behind those of the whole: what the first line is that each part rejects, or that the part is certified. They are
worked out by the reader of tools/reading, which shares no code with the solver; the parts have to come to what the whole is told."""

import sys
from pathlib import Path

sys.path.insert(0, str(Path(__file__).resolve().parent.parent))

from reading import certificates, model  # noqa: E402

CHECK = "check d p l".split(" ")


def with_parts(cases, counts):
    """The cases, with the runs of all parts, for each of these counts, behind the check of a text that has a certificate."""
    standing = {}
    for title, texts, runs, *more in cases:
        standing.update(texts)
        found = []
        for words, printed, status in runs:
            found.append((words, printed, status))
            if words == CHECK and status in (0, 10):
                found += parts_of(title, *(standing[key].encode("utf-8", "surrogateescape") for key in ("domain", "problem", "list")), printed, counts)
        yield (title, texts, found, *more)


def parts_of(title, domain, problem, text, printed, counts):
    read = model.load(domain, problem)
    cert = certificates.Reader(read, text).cert()
    for count in counts:
        first, runs = None, []
        for index in range(1, count + 1):
            rejected = certificates.checked(read, cert, certificates.Part(index, count))
            line = f"rejected {rejected.line} {rejected.reason}" if rejected else f"part {index} of {count} certified {cert.claim()}"
            if rejected and (first is None or rejected.line < first.line):
                first = rejected
            runs.append(([*CHECK, "--part", f"{index}/{count}"], f"verdict {line}\n", 10 if rejected else 0))
        together = f"rejected {first.line} {first.reason}" if first else f"certified {cert.claim()}"
        assert printed == f"verdict {together}\n", (title, count, printed, together)
        yield from runs
