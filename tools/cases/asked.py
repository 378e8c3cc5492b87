"""The words of the programs here: --help, and an end with one line and status 2 where they are not right."""

import os
import sys


def stop(what):
    print(f"{os.path.basename(sys.argv[0])}: {what} (--help tells more)", file=sys.stderr)
    sys.exit(2)


def asked(doc, least=0, most=None, first=None, numbers=False):
    """The words behind the program's name. The first may have to be a "program", a "folder", or a "folder or stored", the others numbers. All of
    these programs are run from the top of the repository."""
    words = sys.argv[1:]
    if words[:1] in (["--help"], ["-h"]):
        print(doc)
        sys.exit(0)
    if not os.path.isdir("crates"):
        stop("run it from the top of the repository")
    if len(words) < least or (most is not None and len(words) > most):
        stop(f"{least} to {most} words are wanted" if least != most and most is not None else f"{least} words are wanted, or more" if most is None else f"{least} words are wanted")
    if words and first == "program" and not (os.path.isfile(words[0]) and os.access(words[0], os.X_OK)):
        stop(f"{words[0]} is no program that can be run")
    if words and first == "folder or stored" and words[0] != "stored" and not os.path.isdir(words[0]):
        stop(f"{words[0]} is no folder, nor `stored`")
    if words and first == "folder" and not os.path.isdir(words[0]):
        stop(f"{words[0]} is no folder")
    if numbers and not all(word.isdigit() for word in words[1:]):
        stop("numbers are wanted behind the first word")
    return words
