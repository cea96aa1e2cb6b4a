#!/usr/bin/env python3
"""Lists the facts that stand in three or more clauses of one crate: `tools/repeated_clauses.py [ROOT]`.

Clauses count as the same where they differ only in `.old`, `.new` and `.now` of what they speak of."""
import collections, glob, re, sys

root = sys.argv[1] if len(sys.argv) > 1 else "."
CLAUSE = re.compile(r"^\s+(requires|ensures)\s+([A-Za-z_]+\s+)?\{(.*)\}\s*;?$", re.M)
total = 0
for crate in sorted({path.split("/")[-3] for path in glob.glob(f"{root}/crates/*/src/*.rt")}):
    count = collections.Counter()
    for path in glob.glob(f"{root}/crates/{crate}/src/*.rt"):
        with open(path) as source:
            for kind, _, body in CLAUSE.findall(source.read()):
                count[kind, re.sub(r"\b(self|below|engine|theory)\.(old|new|now)\b", r"\1", body.strip())] += 1
    for (kind, body), n in count.most_common():
        if n >= 3:
            print(crate, kind, n, body)
            total += n
print("clauses:", total)
