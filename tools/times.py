#!/usr/bin/env python3
"""Prints where the proof of a crate spends its time: usage: tools/times.py FOLDER [COUNT]

FOLDER is a crate, proved by `rt check --jobs 1` with no `out/incremental`, and none of another clone that the check could begin with. A
check keeps each module there when it ends with it, so that a module took as long as lies between it and the one before. Each of the COUNT lines (30 where it is left out) has the seconds of a
function, and after it those of its parts: `Lts` is what may be dropped and borrowed, `Proof` the goals of its contract.
"""
import collections
import pathlib
import re
import sys

PARTS = r"Lts|Proof|Tie|Code|Reads|Key|Met|Statement|Symbol|TheLinks?|Kinds|Goals|Answers|Invariants|Layout|Named"
NAME = re.compile(rf"Rattle-\w+?[-.](?:(?:specs|proofs)\.)?(?:contracts\.)?(.*?)(?:\.({PARTS})\b.*)?")


def main(folder, count=30):
    kept = sorted((file.stat().st_mtime, file.name) for file in pathlib.Path(folder, "out/incremental").rglob("*.oantt"))
    seconds = collections.defaultdict(collections.Counter)
    for (before, _), (after, file) in zip(kept, kept[1:]):
        found = NAME.fullmatch(re.sub(r"(\.decls)?\.oantt$", "", file))
        if found:
            seconds[found[1]][found[2] or "text"] += after - before
    total = {name: sum(parts.values()) for name, parts in seconds.items()}
    for name in sorted(total, key=total.get, reverse=True)[: int(count)]:
        parts = " ".join(f"{part} {spent:.1f}" for part, spent in seconds[name].most_common() if spent >= 0.5)
        print(f"{total[name]:7.1f} {name}  {parts}")


if __name__ == "__main__":
    if len(sys.argv) not in (2, 3):
        sys.exit(__doc__)
    main(*sys.argv[1:])
