"""The links of the pages: that each leads to a file that is there, and to a heading in it."""

import os
import re

PLACES = ("docs", "tools", "models", "crates", "python")
LINK = re.compile(r"\]\(<?([^()<>\s]+)>?(?: \"[^\"]*\")?\)")
NAMED = re.compile(r"`((?:[\w.-]+/)*[\w-]+\.md)`")


def pages(top):
    """All pages of the repository, by their paths from its top."""
    found = [name for name in os.listdir(top) if name.endswith(".md")]
    for place in PLACES:
        for folder, inner, names in os.walk(os.path.join(top, place)):
            inner[:] = sorted(name for name in inner if name not in ("out", "__pycache__"))
            found += [os.path.relpath(os.path.join(folder, name), top) for name in names if name.endswith(".md")]
    return sorted(found)


def text_of(path):
    """A page without its blocks of code."""
    with open(path, encoding="utf-8") as file:
        return re.sub(r"^ *```.*?^ *```$", "", file.read(), flags=re.DOTALL | re.MULTILINE)


def anchors(path):
    """The anchors of a page's headings, as they are made of their words."""
    found = set()
    for head in re.findall(r"^#+ +(.*?) *$", text_of(path), re.MULTILINE):
        name = re.sub(r"[^\w\- ]", "", head.replace("`", "").lower()).replace(" ", "-")
        number, whole = 0, name
        while whole in found:
            number += 1
            whole = f"{name}-{number}"
        found.add(whole)
    return found


def dead(top):
    """Each link that leads nowhere, and each page that is named between backticks and is not there: `PAGE: LINK`."""
    out, known = [], {}
    for page in pages(top):
        text, folder = text_of(os.path.join(top, page)), os.path.dirname(page)
        for link in LINK.findall(re.sub(r"`[^`\n]*`", "", text)):
            if re.match(r"[a-z]+:", link):
                continue
            target, _, anchor = link.partition("#")
            path = os.path.normpath(os.path.join(top, folder, target)) if target else os.path.join(top, page)
            if not os.path.exists(path):
                out.append(f"{page}: {link}")
            elif anchor and path.endswith(".md"):
                if path not in known:
                    known[path] = anchors(path)
                if anchor not in known[path]:
                    out.append(f"{page}: {link}")
        for name in NAMED.findall(text):
            if not any(os.path.exists(os.path.join(top, base, name)) for base in ("", folder, *PLACES)):
                out.append(f"{page}: `{name}`")
    return out
