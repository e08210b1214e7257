#!/usr/bin/env python3
"""What the check of a crate spends its time on.

    cd crates/NAME && rm -rf out/incremental && rt check --jobs 1 && ../../bench/check_times.py [N]

With one job a check keeps each module as soon as it is checked, so the times of the kept files tell what each took. Prints the N modules (30) that
took longest, in seconds. A module `..FUNCTION.Lts` is what is made of a function's own code, `..FUNCTION.Proof` its proof, and others are the
crate's own files of `specs` and `proofs`."""
import os
import sys


def kept(folder):
    """The kept modules, each with the time at which it was kept, in that order."""
    found = []
    for place, _, names in os.walk(folder):
        if not place.endswith("records"):
            found += [(os.stat(os.path.join(place, name)).st_mtime, name[:-6]) for name in names if name.endswith(".oantt")]
    return sorted(found)


def main():
    count = int(sys.argv[1]) if len(sys.argv) > 1 else 30
    modules = kept("out/incremental")
    if len(modules) < 2:
        sys.exit("no module is kept in out/incremental: check the crate first")
    took = sorted(((after[0] - before[0], after[1]) for before, after in zip(modules, modules[1:])), reverse=True)
    print(f"{modules[-1][0] - modules[0][0]:7.1f} in all, {len(modules)} modules")
    for seconds, name in took[:count]:
        print(f"{seconds:7.1f} {name}")


main()
