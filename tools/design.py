#!/usr/bin/env python3
"""Counts for docs/DESIGN-PASS.md what no single grep counts: of points 2 and 5 of issue 42, in src/ of all crates.

usage: tools/design.py, at the top of the repository
"""
import collections
import glob
import re

# The records' crates are made from one table, and so are alike by intent.
RECORDS = set("""attitude channel ek500_channel ek500_sounder event file_end navigation position run_end run_start signature sounder
threshold""".split())

# What sets a function's name apart from its twin's.
APART = re.compile(r"16|32|_wide|_narrow|2|4|8|6|_pairs|_triples|_lsb|_msb|ek500_")

FUNCTION = re.compile(
    r"^( *)(?:pub )?(?:extern \"C\" )?fn ([a-z_0-9]+)(?:<[^>]*>)?\((.*?)\)(?: -> [^\n{]+)?\n(.*?)\n\1\{\n", re.S | re.M)

TOGETHER = [("part", "msb"), ("file", "at", "msb"), ("msb", "whole", "code"), ("numbers", "values"),
            ("numbers", "alongship", "athwartship"), ("rows", "notes"), ("sounders", "channels", "notes"), ("rows", "used")]


def functions():
    """Crate, name, parameters' names and contract of each function that has a contract."""
    for path in sorted(glob.glob("crates/*/src/**/*.rt", recursive=True)):
        for found in FUNCTION.finditer(open(path).read()):
            names = [p.split(":")[0].strip().removeprefix("mut ") for p in found[3].split(",") if ":" in p]
            yield path.split("/")[1], found[2], names, found[4]


def main():
    twins = collections.defaultdict(list)
    facts = collections.Counter()
    groups = collections.Counter()
    places = 0
    for crate, name, names, contract in functions():
        if crate not in RECORDS:
            twins[APART.sub("", name)].append(f"{crate}::{name}")
        for group in TOGETHER:
            groups[group] += all(p in names for p in group)
        places += "out" in names and "msb" in names and ("to" in names or "at" in names)
        wants = re.findall(r"requires(?: [a-z_0-9]+)? \{ (.*?) \}\n", contract + "\n", re.S)
        facts.update({re.sub(r"\s+", " ", fact) for fact in wants})
    alike = {k: v for k, v in twins.items() if len(v) > 1}
    print(f"names alike: {len(alike)}, functions: {sum(map(len, alike.values()))}")
    for key in sorted(alike):
        print("  " + ", ".join(alike[key]))
    often = [n for n in facts.values() if n >= 3]
    print(f"facts in three or more contracts: {len(often)}, in {sum(often)} places")
    for group in TOGETHER:
        print(f"  {', '.join(group)}: {groups[group]}")
    print(f"  out, a place, msb: {places}")


main()
