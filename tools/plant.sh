#!/bin/sh
# Tries wrong bodies on copies of the crates that are named, and lists those that their contracts let through: usage:
# tools/plant.sh NAME.. A line `proves` is a body to read: it is right, or a contract is too weak. It is no part of the gate.
# MINUTES (10 where it is not set) is the greatest time for each crate.
cd "$(dirname "$(readlink -f "$0")")/../crates" || exit
for name in "$@"; do
    echo "== $name"
    (cd "$name" && rt plant --minutes "${MINUTES:-10}" | grep -E 'proves|no-ensures|untested')
done
