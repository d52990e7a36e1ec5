"""Stores a thousand drives in a database and counts a motif in all of them, on two threads."""

import sqlite3
from concurrent.futures import ThreadPoolExecutor

import sirbolta

store = sqlite3.connect(":memory:")
store.execute("create table drives (number integer primary key, words blob)")
for number in range(1000):
    drive = bytes([0] * (number % 60) + [1, 2, 3]) * 20
    store.execute("insert into drives values (?, ?)", (number, sirbolta.build(drive, chair=40)))

motif = bytes([0, 1, 2])
tables = [sirbolta.Table(words) for (words,) in store.execute("select words from drives order by number")]


def finds(part):
    return sum(sirbolta.count_each(part, motif))


with ThreadPoolExecutor(2) as pool:
    print(sum(pool.map(finds, [tables[:500], tables[500:]])), "finds in", len(tables), "drives")
