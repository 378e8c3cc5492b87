"""What the generators of case files share: escapes, and entries of a file of cases."""

import re


def escaped(data):
    """One line of printable ASCII, as `case_files::escaped` writes it. A byte that is no UTF-8 is U+DC80 and more in a text."""
    if isinstance(data, str):
        data = data.encode("utf-8", "surrogateescape")
    names = {10: "\\n", 13: "\\r", 9: "\\t", 92: "\\\\"}
    return "".join(names.get(b) or (chr(b) if 32 <= b < 127 else f"\\x{b:02x}") for b in data)


def unescaped(text):
    """A text without its escapes, which has to be UTF-8."""
    return unescaped_bytes(text).decode()


def unescaped_bytes(text):
    """The bytes of a text without its escapes, as `case_files::unescaped` reads it."""
    names = {"n": b"\n", "r": b"\r", "t": b"\t"}

    def meant(escape):
        inner = escape[1]
        return bytes([int(inner[1:], 16)]) if len(inner) == 3 else names.get(inner, inner.encode())

    parts = re.split(r"(\\(?:x[0-9a-f]{2}|.))", text)
    pieces = [meant(re.fullmatch(r"\\(.*)", it)) if it.startswith("\\") else it.encode() for it in parts]
    return b"".join(pieces)


def guarded(text):
    """An escaped text whose last blank an editor can't lose."""
    return text[:-1] + "\\x20" if text.endswith(" ") else text


def entry(key, data):
    """An entry in one line."""
    text = guarded(escaped(data))
    return f"{key} {text}\n" if text else f"{key}\n"


def block(key, text):
    """An entry with a line of its own for each line of the text, which ends with a line feed."""
    assert text.endswith("\n") or not text
    lines = [guarded(escaped(line)) for line in text.split("\n")[:-1]]
    return f"{key}\n" + "".join(f"| {line}\n" if line else "|\n" for line in lines)
