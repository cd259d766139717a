#!/usr/bin/env python3
"""Where the time of a crate's proof goes.

    cd crates/NAME && rm -rf out && begun=$(date +%s) && rt check --jobs 1
    python3 ../../docs/proof_times.py . $begun 1.0

A check with one job writes the files of out/incremental one after the other, so the time between two of them is what the later
one took. Told are the seconds by kind of file, and by function those of the search for goals without an answer (`Proof`), of the
answers (`Answers`) and of the ways through the body (`Lts`) with its size, of functions that took at least so many seconds.
"""

import collections
import os
import re
import sys

KINDS = ("Lts", "Proof", "Answers", "Goals", "Tie", "Kinds", "Invariants", "Reads", "Layout", "View", "Given")


def files_of(folder):
    """Each file of kept work: when it was written, its name without its endings, its size, oldest first."""
    found = []
    for at, _, names in os.walk(folder):
        for name in names:
            told = os.stat(os.path.join(at, name))
            found.append((told.st_mtime, re.sub(r"(\.decls)?\.oantt$", "", name), told.st_size))
    return sorted(found)


def main():
    crate, begun = sys.argv[1], float(sys.argv[2])
    least = float(sys.argv[3]) if len(sys.argv) > 3 else 1.0
    by_kind, functions, sizes = collections.Counter(), collections.defaultdict(collections.Counter), {}
    before = begun
    for at, name, size in files_of(os.path.join(crate, "out", "incremental")):
        took, before = at - before, at
        if took < 0:
            # (kept from an earlier check)
            before = max(before, begun)
            continue
        own = re.match(r"Rattle-\w+-proofs\.(.*)\.(%s)$" % "|".join(KINDS), name)
        by_kind[own.group(2) if own else "specs, lemmas, start"] += took
        if own:
            functions[own.group(1)][own.group(2)] += took
            if own.group(2) == "Lts":
                sizes[own.group(1)] = max(size, sizes.get(own.group(1), 0))
    for kind, took in by_kind.most_common():
        print(f"{took:8.1f}  {kind}")
    for name, took in sorted(functions.items(), key=lambda it: -sum(it[1].values())):
        if sum(took.values()) >= least:
            told = "  ".join(f"{kind} {took[kind]:6.1f}" for kind in ("Proof", "Answers", "Lts"))
            print(f"{sum(took.values()):8.1f}  {told} of {sizes.get(name, 0) / 1e6:5.2f} MB  {name}")


if __name__ == "__main__":
    main()
