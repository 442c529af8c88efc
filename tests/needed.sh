#!/bin/sh
# Prints crates and those that they stand on, a name a line: tests/needed.sh NAME.., by crates.txt. What has no line there is a library
# of the toolchain, and isn't printed. The scripts use it that try a program or an edit in a copy of some crates.
set -eu

cd "$(dirname "$0")/.."

awk -v names="$*" '
    { sub(/#.*/, "") }
    /:/ { name = $1; sub(/:/, "", name); $1 = ""; below[name] = $0 }
    END {
        left = split(names, todo, " ")
        while (left > 0) {
            name = todo[left--]
            if (name in below && !seen[name]++) {
                print name
                count = split(below[name], lower, " ")
                for (i = 1; i <= count; i++) { todo[++left] = lower[i] }
            }
        }
    }' crates.txt
