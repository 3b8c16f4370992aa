#!/usr/bin/env python3
"""Says which names in the documents are no longer there: usage: tests/names.py

Each word in backquotes in a document is a name of the sources, and each file name is that of a file of this repository. Blocks of code are left
out, and words that are no names by their form, as rules, options and commands with their arguments.
"""
import os
import re
import subprocess
import sys

DOCUMENTS = ["README.md"] + ["docs/%s.md" % name for name in ("architecture", "claims", "contributing", "DECISIONS", "language", "proving")]
# Names of the kit and of the system, and names with T or V for any type or variant.
OTHERS = {"Updates", "into_iter", "nice", "renice", "fold-T", "fold-V", "out-T", "T-F", "T'Pos", "A'First"}
NAME = r"[A-Za-z_][A-Za-z_0-9]*(?:['-][A-Za-z_0-9]+)*"
FILE = r"[\w./-]+\.(?:rt|antt|py|sh|md|edit|adb)"


def listed():
    """The files of this repository."""
    out = subprocess.run(["git", "ls-files"], check=True, capture_output=True, text=True).stdout
    return out.split()


def names_in(files):
    """All names in the sources and in the scripts, and the files' own."""
    names = set()
    for path in files:
        names.update(re.findall(NAME, path))
        if path.startswith(("crates/spx_table/std", "tests/names.py")) or path.endswith((".md", ".json")):
            continue
        if os.path.exists(path):
            with open(path, encoding="utf-8", errors="replace") as source:
                text = source.read()
            names.update(re.findall(NAME, text))
            names.update(re.findall(r"[A-Za-z_][A-Za-z_0-9]*", text))
    return names


def missing(document, names, files):
    """The words in backquotes of a document that name nothing."""
    with open(document, encoding="utf-8") as text:
        prose = re.sub(r"(?s)```.*?```", "", text.read())
    for word in re.findall(r"`([^`\n]+)`", prose):
        if re.fullmatch(FILE, word):
            if os.path.basename(word) not in files:
                yield word
        elif re.fullmatch(NAME + "(?:::" + NAME + ")?", word) and word not in OTHERS:
            if not all(part in names for part in word.split("::")):
                yield word


def main():
    os.chdir(os.path.dirname(os.path.dirname(os.path.abspath(__file__))))
    files = listed()
    names = names_in(files)
    bases = {os.path.basename(path) for path in files}
    found = [(document, word) for document in DOCUMENTS for word in missing(document, names, bases)]
    for document, word in found:
        print("%s: %s is not there" % (document, word))
    return 1 if found else 0


if __name__ == "__main__":
    sys.exit(main())
