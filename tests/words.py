#!/usr/bin/env python3
"""Says which words and sentences in the documents are to be changed: usage: tests/words.py

Some words have a plainer one that is meant. A sentence has at most 24 words, where a name or a list of names in backquotes counts as one.
Tables, blocks of code and the lists of language.md, which give an order, are left out there.
"""
import glob
import os
import re
import sys

ORDERED = "docs/language.md"
MOST = 24
WORDS = r"\b(?:stands?|standing|stood|behind|told|tells?|alone|in front of|want of)\b"
ITEM = r"\s*(?:[-*]|\d+\.) +"


def paragraphs(lines):
    """The paragraphs, items of lists among them, each with the number of its first line and whether it is of a table."""
    kept, first, inside, after_blank, in_list = [], 0, False, True, False
    for number, line in enumerate(lines + [""], 1):
        if line.startswith("```"):
            inside = not inside
            line = ""
        is_item = re.match(ITEM, line) is not None
        is_block = line.startswith("    ") and after_blank and not in_list
        if inside or is_block or not line.strip() or is_item or line.startswith(("|", "#")):
            if kept:
                yield first, " ".join(kept), False
            kept = []
        after_blank = inside or is_block or not line.strip()
        if inside or is_block or not line.strip():
            continue
        in_list = is_item or in_list and line.startswith(" ")
        if line.startswith(("|", "#")):
            yield number, line, True
            continue
        if not kept:
            first = number
        kept.append(re.sub(ITEM, "", line, count=1) if is_item else line.strip())


def sentences(text):
    """The sentences of a paragraph, in which a name in backquotes, or a list of these, is one word."""
    names = re.sub(r"`[^`]+`(?: \([^()`]*\))?(?:,? (?:and |or )?`[^`]+`)*", "Name", re.sub(r"\]\([^)]*\)", "]", text))
    return re.split(r"(?<=[.?!])[)\"*]*\s+", names)


def main():
    os.chdir(os.path.dirname(os.path.dirname(os.path.abspath(__file__))))
    found = 0
    for document in ["README.md"] + sorted(glob.glob("docs/*.md")):
        with open(document, encoding="utf-8") as text:
            lines = text.read().split("\n")
        for number, paragraph, is_row in paragraphs(lines):
            for word in re.findall(WORDS, re.sub(r"`[^`]+`", "", paragraph), re.IGNORECASE):
                found += 1
                print("%s:%d: the word %s" % (document, number, word))
            for sentence in sentences(paragraph) if document != ORDERED and not is_row else []:
                count = len(re.findall(r"[^\s]*\w[^\s]*", sentence))
                if count > MOST:
                    found += 1
                    print("%s:%d: %d words: %s" % (document, number, count, sentence))
    return 1 if found else 0


if __name__ == "__main__":
    sys.exit(main())
