"""Texts that cases make when they run, as crates/case_making makes them: pieces in many copies, cuts, noise; and what is told of many
runs together."""

BITS = (0x80, 0x40, 0x20, 0x02)


def filled(text, count, piece):
    """A text with so many copies of a piece in place of its first `@`; a `#` in a piece stands for the number of the copy."""
    before, mark, rest = text.partition(b"@")
    if not mark:
        return text
    if b"#" not in piece:
        return before + count * piece + rest
    return before + b"".join(piece.replace(b"#", b"%d" % number) for number in range(count)) + rest


def cuts(domain, problem):
    """Both texts, the domain cut at each of its bytes, and then the problem."""
    yield from ((domain[:place], problem) for place in range(len(domain)))
    yield from ((domain, problem[:place]) for place in range(len(problem)))


class Draws:
    """A generator of numbers."""

    def __init__(self, seed):
        self.last = seed

    def below(self, most):
        self.last = self.last * 48271 % 2**64 % 2147483647
        return self.last % most if most else 0


def line_start(text, place):
    return text.rfind(b"\n", 0, place) + 1


def line_end(text, place):
    return text.find(b"\n", place) + 1 or len(text)


def exchanged(text, place):
    """A text with the line of a place and the next one exchanged."""
    start, middle = line_start(text, place), line_end(text, place)
    end = line_end(text, middle)
    return text[:start] + text[middle:end] + text[start:middle] + text[end:]


def changed(draws, text, pieces):
    """A text changed at one place."""
    start = draws.below(len(text))
    end = start + draws.below(12) + 1
    kind = draws.below(9)
    if kind == 0:
        bit = BITS[draws.below(4)]
        return text[:start] + bytes(byte ^ bit for byte in text[start : start + 1]) + text[start + 1 :]
    if kind == 1:
        return text[:start] + text[start:end] + text[start:]
    if kind == 2:
        return text[:start] + text[end:]
    if kind == 3:
        return text[:start]
    if kind == 4:
        return exchanged(text, start)
    piece = pieces[draws.below(len(pieces))]
    return text[:start] + piece + text[end if kind == 5 else start :]


def noisy(draws, text, pieces):
    for _ in range(draws.below(3) + 1):
        text = changed(draws, text, pieces)
    return text


def noises(domain, problem, pieces, count, seed):
    """Both texts with the domain or the problem changed by draws, so many times."""
    draws = Draws(seed)
    for _ in range(count):
        if draws.below(2) == 0:
            yield noisy(draws, domain, pieces), problem
        else:
            yield domain, noisy(draws, problem, pieces)


class Tally:
    """How many runs came to each end, in the order in which the ends came first, and a digest of all that they printed."""

    def __init__(self):
        self.counts, self.digest = {}, 0xCBF29CE484222325

    def add(self, output, status):
        for byte in output.encode():
            self.digest = (self.digest ^ byte) * 0x100000001B3 % 2**64
        line = output.removesuffix("\n").split("\n")[-1]
        if line.startswith("refused "):
            line = line.split(" ", 2)[2]
        end = f"status {status} {line}"
        self.counts[end] = self.counts.get(end, 0) + 1

    def text(self):
        return "".join(f"{runs} {end}\n" for end, runs in self.counts.items()) + f"digest {self.digest:016x}\n"
