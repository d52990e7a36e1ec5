#!/usr/bin/env python3
"""Lists the facts of `requires` that stand in three contracts or more: `N FACT`, most first. Run at the top of a checkout."""
import collections
import glob
import re


def facts(clause):
    """The parts of a clause between the signs × that stand in no brackets."""
    parts, depth = [""], 0
    for token in re.split(r"( × )", clause):
        if token == " × " and depth == 0:
            parts.append("")
            continue
        parts[-1] += token
        depth += token.count("(") - token.count(")")
    return parts


def plain(fact):
    """The fact without the brackets round it, the time of a slice and the name of a state."""
    fact = fact.strip()
    while fact.startswith("(") and fact.endswith(")") and ":" not in fact.split(")")[0]:
        fact = fact[1:-1]
    return re.sub(r"\b[hg] : ", "_ : ", re.sub(r"\.(now|old)\b", "", fact))


counts = collections.Counter()
for path in glob.glob("crates/*/src/*.rt"):
    with open(path) as file:
        for match in re.finditer(r"^\s*requires(?: \w+)? \{ (.*) \}$", file.read(), re.M):
            counts.update(plain(fact) for fact in facts(match.group(1)))
for fact, count in counts.most_common():
    if count >= 3:
        print(count, fact)
