#!/usr/bin/env python3
"""Calls the prover on one crate, over libraries that are built: usage: tools/over.py BUILT CRATE WHAT [FLAG..]

BUILT is a checkout in which `rt ci` was run, so that it has `crates/*/out/rlib`. Nothing below CRATE is proved again, as `rt check` does in
a new checkout. WHAT is `check`, which proves the crate and keeps what it has checked for the next time; `build`, which proves it and writes
its library into BUILT; or `program`, which proves a program and links it as `CRATE` in the folder for temporary files. FLAGs are those of
`rattle check`, such as `--allow-holes --only FUNCTION`. It is no gate: it trusts the libraries, and tries no wrong body.
"""
import os
from pathlib import Path
import subprocess
import sys
import tempfile

TOP = Path(__file__).resolve().parent.parent
TARGET = "x86_64-unknown-linux-gnu"


def stands_on():
    """What each crate stands on, as `crates.txt` has it."""
    lines = (TOP / "crates.txt").read_text(encoding="utf-8").splitlines()
    pairs = (line.split(":", 1) for line in lines if ":" in line and not line.startswith("#"))
    return {name.strip(): below.split() for name, below in pairs}


def all_below(crate, below):
    """The crates of the repository below one, each once."""
    found = []
    for name in below[crate]:
        if name in below:
            found += [it for it in (*all_below(name, below), name) if it not in found]
    return found


def folder_of(built, crate):
    """Where the library of a crate is."""
    return built / "crates" / crate / "out" / "rlib"


def command(kit, built, crate, what, flags):
    """The prover's words."""
    below, kits = stands_on(), kit / "rlibs"
    root = "src/main.rt" if (TOP / "crates" / crate / "src" / "main.rt").exists() else "src/lib.rt"
    words = [kit / "bin" / "rattle", "check" if what == "check" else "build", "--crate-name", crate, root, "--extern", f"std={kits}/std.rlib"]
    for name in below[crate]:
        words += ["--extern", f"{name}={folder_of(built, name) if name in below else kits}/{name}.rlib"]
    for name in all_below(crate, below):
        words += ["-L", f"dependency={folder_of(built, name)}"]
    words += ["-L", f"dependency={kits}", "--antt-project", kit / "rattle/logic/antt-project.json", "--logic-built", kit / "logic_built", "--links", f"{crate}="]
    if what == "check":
        words += ["--incremental", kept_for(crate)]
    elif what == "build":
        folder_of(built, crate).mkdir(parents=True, exist_ok=True)
        words += ["--statements", "--empty-contracts", "-o", folder_of(built, crate) / f"{crate}.rlib"]
    else:
        words += ["--toolchain", kit / "toolchain", "--backend", "llvm", "-o", f"{tempfile.gettempdir()}/{crate}.o"]
    return [*words, *flags]


def kept_for(crate):
    """The folder for what the checks of a crate of this checkout keep."""
    folder = Path(tempfile.gettempdir()) / "over" / f"{TOP.name}-{crate}"
    folder.mkdir(parents=True, exist_ok=True)
    return folder


def link(kit, crate):
    """Links a program."""
    made = f"{tempfile.gettempdir()}/{crate}"
    return subprocess.run([kit / "bin" / "rattle-link", "--target", TARGET, "--toolchain", kit / "toolchain", "-o", made, f"{made}.o",
                           kit / "c/libos_c.a", kit / "c/liblibc_c.a"], check=False).returncode


def main():
    if len(sys.argv) < 4 or sys.argv[3] not in ("check", "build", "program"):
        sys.exit(__doc__)
    built, crate, what, *flags = sys.argv[1:]
    kit = Path(subprocess.run(["rt", "doc"], capture_output=True, text=True, check=True).stdout.strip()).parent
    words = command(kit, Path(built).resolve(), crate, what, flags)
    os.chdir(TOP / "crates" / crate)
    status = subprocess.run(words, check=False).returncode
    sys.exit(link(kit, crate) if what == "program" and status == 0 else status)


if __name__ == "__main__":
    main()
