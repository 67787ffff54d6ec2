#!/usr/bin/env python3
"""Measures the built program beside sqlite3, outside the gate: processor time and greatest size, in turn, the least of five runs each.

measure.py loading [RECORDS]    tables of so many records and of half as many, and a query that keeps one row
measure.py scanning [RECORDS]   a table of so many records, and a script of ten queries over it
measure.py joining [LEFT RIGHT] tables of so many records and of half as many, and a join of them by an INTEGER column, of as many rows as the
                                left one has; each key of the right one comes once
measure.py grouping [RECORDS]   tables of so many records and of half as many in 10, 1,000 and 100,000 groups, a count and a sum of each; and
                                what a row takes that meets a table of all groups: emitted instructions, native ones of these, and native ones
                                and seconds of the same loop in C (groups.c, built by clang -O2; native ones are counted by valgrind)
"""
import array
import os
import random
import re
import subprocess
import sys
import tempfile

TOP = os.path.dirname(os.path.abspath(__file__))
PROGRAM = os.path.join(TOP, "../crates/qwasm/out/qwasm")
SCHEMA = "CREATE TABLE ITEM (ID INTEGER NOT NULL, PRICE {} NOT NULL, SOLD {} NOT NULL, LABEL {} NOT NULL);"
TYPES = ("DECIMAL(12, 2)", "DATE", "VARCHAR(20)")
PEER_TYPES = ("NUMERIC", "TEXT", "TEXT")
LOADING = ["SELECT ID FROM ITEM WHERE ID = 5"]
SCANNING = [
    "SELECT ID FROM ITEM WHERE ID = 5",
    "SELECT ID, PRICE FROM ITEM WHERE PRICE < 1.5",
    "SELECT ID FROM ITEM WHERE SOLD = {date}'1995-07-14' AND PRICE > 99900000",
    "SELECT ID FROM ITEM WHERE LABEL = 'abc'",
    "SELECT LABEL FROM ITEM WHERE ID > 2147400000",
    "SELECT ID FROM ITEM WHERE PRICE * 2 + 1 < 10",
    "SELECT ID FROM ITEM WHERE ID BETWEEN 1000 AND 2000",
    "SELECT ID, SOLD FROM ITEM WHERE SOLD >= {date}'2020-12-28' AND ID < 0",
    "SELECT ID FROM ITEM WHERE ID IN (1, 2, 3, 5, 8, 13)",
    "SELECT ID, ID + 1 FROM ITEM WHERE NOT (ID < 2147300000 OR PRICE > 50000000)",
]


PAIR = "CREATE TABLE A (K INTEGER NOT NULL, X INTEGER NOT NULL);\nCREATE TABLE B (K INTEGER NOT NULL, Y INTEGER NOT NULL);\n"
JOIN = "SELECT A.X, B.Y FROM A JOIN B ON A.K = B.K"
PAGES = "8192"

TABLE = "CREATE TABLE T (K INTEGER NOT NULL, X INTEGER NOT NULL);\n"
GROUPED = "SELECT K, COUNT(*) AS N, SUM(X) AS S FROM T GROUP BY K"
GROUPS = (10, 1_000, 100_000)
COUNTED_ROWS = 10_000  # behind the first row of each group, of which native instructions are counted


def record():
    label = "".join(random.choice("abcdefghijklmnop") for _ in range(random.randint(3, 20)))
    day = f"{random.randint(1990, 2020)}-{random.randint(1, 12):02}-{random.randint(1, 28):02}"
    return f"{random.randint(-2**31, 2**31 - 1)},{random.randint(0, 10**10) / 100:.2f},{day},{label}\n"


def written(path, text):
    with open(path, "w") as file:
        file.write(text)
    return path


def row_count(report, is_peer):
    """Returns how many rows a report has, of all queries: for the peer each line is one, and else each heading tells how many follow."""
    if is_peer:
        return sum(1 for _ in report)
    headings = (line.split() for line in report if line.startswith("QUERY "))
    return sum(int(words[3]) for words in headings)


def taken(command, is_peer):
    """Returns processor seconds, the greatest size in MB, and the number of rows. What was written is never in memory whole: a child's size is at
    least that of the process that it was forked from."""
    with tempfile.TemporaryFile("w+") as out:
        process = subprocess.Popen(command, stdout=out)
        _, status, used = os.wait4(process.pid, 0)
        if status:
            sys.exit(f"{command[0]} ended with {status}")
        out.seek(0)
        return used.ru_utime + used.ru_stime, used.ru_maxrss / 1024, row_count(out, is_peer)


def commands(room, folder, queries):
    schema = written(f"{room}/schema.sql", SCHEMA.format(*TYPES))
    script = written(f"{room}/queries.sql", "".join(f"{query.format(date='DATE ')};\n" for query in queries))
    peer = ["sqlite3", ":memory:", SCHEMA.format(*PEER_TYPES), ".mode csv", f".import --skip 1 {folder}/item.csv ITEM"]
    peer += [query.format(date="") for query in queries]
    return {"qwasm": [PROGRAM, "run", schema, folder, script], "sqlite3": peer}


def measured(tried):
    """Prints the least of five runs of each command, which are run in turn."""
    least, found = {}, {}
    for _ in range(5):
        for key, command in tried.items():
            seconds, size, found[key] = taken(command, key[0] == "sqlite3")
            least[key] = min(least.get(key, (1e9, 0)), (seconds, size))
    for (name, count), (seconds, size) in least.items():
        print(f"{name} {count} records: {seconds:.2f} s, {size:.0f} MB, {found[name, count]} rows")


def measure(counts, queries):
    random.seed(1)
    with tempfile.TemporaryDirectory() as room:
        tried = {}
        for count in counts:
            folder = f"{room}/{count}"
            os.mkdir(folder)
            with open(f"{folder}/item.csv", "w") as file:
                file.write("ID,PRICE,SOLD,LABEL\n")
                file.writelines(record() for _ in range(count))
            tried |= {(name, count): command for name, command in commands(room, folder, queries).items()}
        measured(tried)


def measure_join(counts):
    random.seed(1)
    with tempfile.TemporaryDirectory() as room:
        tried = {}
        for left, right in counts:
            folder = f"{room}/{left}_{right}"
            os.mkdir(folder)
            keys = random.sample(range(-2**31, 2**31), right)
            with open(f"{folder}/a.csv", "w") as file:
                file.write("K,X\n")
                file.writelines(f"{random.choice(keys)},{row}\n" for row in range(left))
            with open(f"{folder}/b.csv", "w") as file:
                file.write("K,Y\n")
                file.writelines(f"{key},{row}\n" for row, key in enumerate(keys))
            schema, script = written(f"{folder}/schema.sql", PAIR), written(f"{folder}/queries.sql", JOIN)
            peer = ["sqlite3", ":memory:", PAIR, ".mode csv", f".import --skip 1 {folder}/a.csv A", f".import --skip 1 {folder}/b.csv B", JOIN + ";"]
            tried["qwasm", f"{left} by {right}"] = [PROGRAM, "run", schema, folder, script, "--pages", PAGES]
            tried["sqlite3", f"{left} by {right}"] = peer
        measured(tried)


def write_groups(folder, groups, count):
    """Writes a table of so many rows as T's file, and for groups.c. Each key comes once, and then they come at random."""
    os.mkdir(folder)
    keys = random.sample(range(-2**31, 2**31), groups)
    rows = [(keys[row] if row < groups else random.choice(keys), random.randint(-2**31, 2**31 - 1)) for row in range(count)]
    with open(f"{folder}/t.csv", "w") as file:
        file.write("K,X\n")
        file.writelines(f"{key},{value}\n" for key, value in rows)
    numbers = array.array("i", (number for row in rows for number in row))
    if sys.byteorder == "big":
        numbers.byteswap()
    with open(f"{folder}/t.bin", "wb") as file:
        numbers.tofile(file)


def grouping(folder, times=1):
    """The run of so many grouped queries over a folder's table."""
    schema = written(f"{folder}/schema.sql", TABLE)
    script = written(f"{folder}/queries{times}.sql", ";\n".join([GROUPED] * times))
    return [PROGRAM, "run", schema, folder, script, "--pages", PAGES]


def emitted(folder):
    """How many instructions the query of a folder's table ran."""
    report = subprocess.run(grouping(folder) + ["--stats"], capture_output=True, check=True, text=True).stdout
    return int(re.search(r"^STATS 1 STEPS (\d+) ", report, flags=re.M)[1])


def native(command):
    """How many native instructions a command takes."""
    counted = ["valgrind", "--tool=callgrind", "--callgrind-out-file=/dev/null"] + command
    notes = subprocess.run(counted, stdout=subprocess.DEVNULL, stderr=subprocess.PIPE, check=True, text=True).stderr
    return int(re.search(r"Collected : (\d+)", notes)[1])


def native_twice(command_of):
    """How many native instructions are taken by doing once more what a command does once or twice: so reading its file doesn't count."""
    return native(command_of(2)) - native(command_of(1))


def measure_groups(records):
    random.seed(1)
    with tempfile.TemporaryDirectory() as room:
        loop = f"{room}/groups"
        subprocess.run(["clang", "-O2", "-o", loop, f"{TOP}/groups.c"], check=True)
        for groups in GROUPS:
            tried = {}
            counts = (records, records // 2, groups + 2 * COUNTED_ROWS, groups + COUNTED_ROWS)
            folders = [f"{room}/{groups}_{order}" for order in range(len(counts))]
            for folder, count in zip(folders, counts):
                write_groups(folder, groups, count)
            for folder, count in list(zip(folders, counts))[:2]:
                tried["qwasm", f"{groups} groups of {count}"] = grouping(folder)
                peer = ["sqlite3", ":memory:", TABLE, ".mode csv", f".import --skip 1 {folder}/t.csv T", GROUPED + ";"]
                tried["sqlite3", f"{groups} groups of {count}"] = peer
            measured(tried)
            rows = counts[0] - counts[1]
            print(f"{groups} groups: {(emitted(folders[0]) - emitted(folders[1])) / rows:.1f} emitted instructions a row")
            ours = [native_twice(lambda times: grouping(folder, times)) for folder in folders[2:]]
            theirs = [native_twice(lambda times: [loop, f"{folder}/t.bin", str(times)]) for folder in folders[2:]]
            for name, (more, fewer) in (("qwasm", ours), ("C", theirs)):
                print(f"{groups} groups: {name} {(more - fewer) / COUNTED_ROWS:.1f} native instructions a row")
            print(f"{groups} groups: C {subprocess.run([loop, f'{folders[0]}/t.bin', '5'], capture_output=True, check=True, text=True).stdout.strip()}")


def main():
    what = sys.argv[1] if len(sys.argv) > 1 else ""
    records = int(sys.argv[2]) if len(sys.argv) > 2 else 1_000_000
    if what == "loading":
        measure((records, records // 2), LOADING)
    elif what == "scanning":
        measure((records,), SCANNING)
    elif what == "joining":
        left, right = (int(word) for word in sys.argv[2:4]) if len(sys.argv) > 3 else (100_000, 100_000)
        measure_join([(left, right), (left // 2, right // 2)])
    elif what == "grouping":
        measure_groups(max(records, 2 * max(GROUPS)))
    else:
        sys.exit(__doc__)


main()
