#!/usr/bin/env python3
"""Facts that stand in the contracts of several functions, and parameters that travel together.

Run at the top of the repository. A fact is a projection or a wrapper that clauses write round a value,
such as `net_of net.now`; it is listed with the number of the functions whose contracts have it.
Parameters are listed where three or more functions take the same two or more in a row.
"""
import collections
import glob
import re

FUNCTION = re.compile(
    r"\bfn (\w+)(?:<[^(]*>)?\(([^)]*)\)([^{;]*?)((?:\n\s+(?:requires|ensures)[^\n]*)*)\n?\s*[{;]"
)
CLAUSE = re.compile(r"(?:requires|ensures)\s*\w*\s*\{ (.*) \}")
WRAPPER = re.compile(r"\((\w+_(?:of|in)) ([a-z]+)(?:\.\w+)*\)|\b(places_in|transitions_in|net_of|transition_of|terms_in) ([a-z]+)")

facts = collections.defaultdict(set)
params = collections.defaultdict(list)
for path in sorted(glob.glob("crates/*/src/**/*.rt", recursive=True)):
    crate = path.split("/")[1]
    for match in FUNCTION.finditer(open(path).read()):
        name = f"{crate}::{match.group(1)}"
        for clause in CLAUSE.findall(match.group(4)):
            for wrapper in WRAPPER.finditer(clause):
                facts[wrapper.group(1) or wrapper.group(3)].add((path, name))
            facts[clause].add((path, name))
        taken = [p.strip() for p in match.group(2).replace("\n", " ").split(",")]
        taken = [p for p in taken if p and "self" not in p]
        for i in range(len(taken)):
            for j in range(i + 2, len(taken) + 1):
                params[", ".join(taken[i:j])].append(name)

for table in (facts, params):
    for what, names in sorted(table.items(), key=lambda entry: -len(entry[1])):
        if len(names) >= 3:
            print(f"{len(names):3}  {what}")
