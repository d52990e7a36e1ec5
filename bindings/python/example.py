"""Builds a table, checks it, reads it back and searches it."""

import sirbolta

table = sirbolta.build(b"abab", chair=40)
print(table.check(), "rules")

drive, chair = table.read()
print(f"chair {chair}, {len(drive)} samples")

positions, tests = table.locate_with_tests(b"ab")
print("ab begins at", positions)
print(tests, "tests")

try:
    table.extract(start=4, length=1)
except sirbolta.RangePastEnd as refusal:
    print(refusal)
