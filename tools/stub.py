#!/usr/bin/env python3
"""Writes stubs of crates: usage: tools/stub.py FOLDER CRATE..

FOLDER is a clone of this repository, next to it. Each CRATE is copied from here to there with its types, contracts, definitions and
lemma files, but each function body is a call of a foreign function whose contract is false. Such a crate is proved in a minute or two,
whatever its contracts say, so that crates that use it can be proved before it is. A stub is never merged, and proves nothing.

In FOLDER set RT_ALLOW_C=1. What a check over stubs keeps in out/incremental holds for the most part over the real crates too: copy it
to the crate there, and check once more.
"""
import os
import re
import shutil
import sys

HEAD = re.compile(r"^( *)(pub(\([^)]*\))? )?(const )?(unsafe )?fn \w+")
TACTIC = re.compile(r"(?ms)^ *#\[tactic\(auto,[^\n]*?using\(.*?\)\)\]\n")
FOREIGN = '\nunsafe extern "C" {\n    safe fn absurd()\n        ensures nothing { ⊥ };\n}\n'


def body_of(lines, at, indent):
    """Where the body of the function at line `at` begins and ends, and whether it returns nothing; None at a declaration."""
    for k in range(at, len(lines)):
        line = lines[k]
        if k > at and (HEAD.match(line) or line == indent[4:] + "}" and indent):
            return None
        if line == indent + "{}" or (k == at or line.startswith(indent + ")")) and line.endswith(" {}"):
            return k, k, True
        if line == indent + "{" or (k == at or line.startswith(indent + ")")) and line.endswith(" {"):
            return k, lines.index(indent + "}", k), False
    return None


def drop_cycle(out):
    """Drops the name of a cycle of calls among the attributes above a function: no stub calls another function."""
    at = len(out) - 1
    while at >= 0 and re.match(r" *(#\[|///)", out[at]):
        if re.match(r" *#\[cycle", out[at]):
            del out[at]
        at -= 1


def stub(text):
    """The text of a file with the body of each function replaced."""
    lines, out, at = text.split("\n"), [], 0
    while at < len(lines):
        head = HEAD.match(lines[at])
        body = head and body_of(lines, at, head[1])
        if not body:
            out.append(lines[at])
            at += 1
            continue
        drop_cycle(out)
        begin, end, is_empty = body
        out += lines[at:begin]
        out.append(lines[begin].removesuffix("}"))
        out.append(head[1] + "    crate::absurd();" + ("" if is_empty else f"\n{head[1]}    unreachable!()"))
        out.append(head[1] + "}")
        at = end + 1
    return TACTIC.sub("", "\n".join(out))


def stub_files(folder):
    """Replaces the bodies in all files of the crate in this folder."""
    for at, _, names in os.walk(f"{folder}/src"):
        for name in names:
            path = f"{at}/{name}"
            with open(path, encoding="utf-8") as it:
                text = stub(it.read())
            with open(path, "w", encoding="utf-8") as it:
                it.write(text + FOREIGN * (path == f"{folder}/src/lib.rt"))


def drop_answers(folder):
    """Drops the answers: the folders of proofs/ that no Lib.antt declares."""
    if not os.path.isdir(f"{folder}/proofs"):
        return
    declared = []
    if os.path.exists(f"{folder}/proofs/Lib.antt"):
        with open(f"{folder}/proofs/Lib.antt", encoding="utf-8") as it:
            declared = re.findall(r"mod (\w+)", it.read())
    for name in os.listdir(f"{folder}/proofs"):
        if os.path.isdir(f"{folder}/proofs/{name}") and name not in declared:
            shutil.rmtree(f"{folder}/proofs/{name}")


def main():
    top = os.path.dirname(os.path.dirname(os.path.realpath(__file__)))
    if len(sys.argv) < 3 or os.path.realpath(sys.argv[1]) == top:
        sys.exit(__doc__)
    for name in sys.argv[2:]:
        folder = f"{sys.argv[1]}/crates/{name}"
        shutil.rmtree(folder, ignore_errors=True)
        shutil.copytree(f"{top}/crates/{name}", folder, ignore=shutil.ignore_patterns("out", "must-fail"))
        os.makedirs(f"{folder}/c", exist_ok=True)
        stub_files(folder)
        drop_answers(folder)


main()
