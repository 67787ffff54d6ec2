#!/usr/bin/env python3
"""Runs a script over a table in shards by a pool of processes or by Dask's workers, and merges what the shards report.

    shards.py split RECIPE DIR N [--random SEED]             parts DIR/TABLE.csv, the recipe's sharded table, into DIR/0 .. DIR/N-1
    shards.py run RECIPE DIR [--workers N | --dask ADDRESS]  writes the report of the whole

DIR/0, DIR/1, .. each hold a part of the sharded table, DIR the tables that each shard has whole. `qwasm run` runs the recipe's script `partial`
over each shard; the rows of its statement k, of all shards, are the table PART_k of `merge_schema`, over which statement k of `merge` runs.
`qwasm` is the program that the variable QWASM names, or the one on the path; Dask's workers find it and DIR under the same names. README.md says
what can be parted so, and what is proved of it.
"""
import argparse
import csv
import io
import json
import os
import random
import re
import subprocess
import sys
import tempfile
from concurrent.futures import ProcessPoolExecutor
from pathlib import Path

QWASM = os.environ.get("QWASM", "qwasm")
# With these there is no report, or not all of one.
REFUSED = {2, 3, 4, 5, 6, 7, 9, 11}
# Which status a report has whose queries end so: a limit of pages before one of instructions, and that before an exception.
STATUSES = [0, 1, 10, 8]


class Recipe:
    def __init__(self, path):
        said = json.loads(path.read_text())
        self.schema, self.partial = (path.parent / said[name] for name in ("schema", "partial"))
        self.merge_tables, self.merges = (statements((path.parent / said[name]).read_text()) for name in ("merge_schema", "merge"))
        self.sharded, self.whole, self.pages = said["sharded"].upper(), said["whole"], said.get("pages", 128)


def statements(text):
    """The statements of a script, without its comments. No string of these scripts has a `;` or `--` in it."""
    return [part.strip() for part in re.sub(r"--[^\n]*", "", text).split(";") if part.strip()]


def refusals(recipe):
    """Why a statement of `partial` can't be run shard by shard."""
    for number, text in enumerate(statements(recipe.partial.read_text()), 1):
        # without strings, and without the FROM within EXTRACT
        bare = re.sub(r"\bEXTRACT\s*\(\s*\w+\s+FROM\b", "EXTRACT(", re.sub(r"'[^']*'", "''", text).upper())
        words = re.findall(r"\w+|[^\w\s]", bare)
        sources = words[words.index("FROM") :]
        for end in ("WHERE", "GROUP", "HAVING", "ORDER"):
            sources = sources[: sources.index(end)] if end in sources else sources
        entries = [i for i, word in enumerate(sources) if word == recipe.sharded and sources[i - 1] in ("FROM", "JOIN", ",")]
        if not entries:
            yield f"statement {number}: {recipe.sharded} isn't in its FROM, so each shard would report the same rows"
        elif len(entries) > 1:
            yield f"statement {number}: {recipe.sharded} is joined to itself, and rows of two shards never meet"
        elif sources[entries[0] - 1] == "JOIN" and {"LEFT", "OUTER"} & set(sources[entries[0] - 3 : entries[0] - 1]):
            yield f"statement {number}: {recipe.sharded} is on the right of LEFT JOIN, where a row without a partner in one shard may have one in another"
        if "HAVING" in words:
            yield f"statement {number}: HAVING would judge a part of a group; it belongs into the merge"
        if any(pair == ("AVG", "(") for pair in zip(words, words[1:])):
            yield f"statement {number}: averages have no average; take SUM and COUNT, and divide in the merge"


def run(program, schema, folder, script, pages):
    done = subprocess.run([program, "run", schema, folder, script, "--pages", str(pages)], capture_output=True, check=False)
    return done.returncode, done.stdout.decode(), done.stderr.decode()


def answers_of(calls, workers, dask):
    """What the runs of these calls come to, in their order: by a pool of so many processes, or by the workers of Dask's scheduler at an address."""
    if dask:
        from distributed import Client

        with Client(dask) as client:
            return client.gather(client.map(run, *zip(*calls), pure=False))
    with ProcessPoolExecutor(workers) as pool:
        return list(pool.map(run, *zip(*calls)))


def parts(report):
    """Of each statement what is said of it, and its header and rows where it has some."""
    lines, found = csv.reader(io.StringIO(report, newline="")), []
    for [line] in lines:
        said = line.split(" ", 2)[2]
        found.append((said, [next(lines) for _ in range(int(said[5:]) + 1)] if said.startswith("ROWS ") else None))
    return found


def merged_statement(recipe, number, answers):
    """The status and the part of the report of one statement, from what the shards said of it: (shard, what was said, rows) each."""
    for shard, said, rows in answers:
        if rows is None:
            print(f"shard {shard}: QUERY {number} {said}", file=sys.stderr)
            return {"PAGES": 8, "STEPS": 10}.get(said.split()[0], 1), f"QUERY {number} {said}\n"
    with tempfile.TemporaryDirectory() as folder:
        with open(f"{folder}/part_{number}.csv", "w", newline="", encoding="utf-8") as file:
            rows = [answers[0][2][0], *(row for _, _, some in answers for row in some[1:])]
            csv.writer(file, lineterminator="\n", quoting=csv.QUOTE_ALL).writerows(rows)
        for name, text in (("schema", recipe.merge_tables[number - 1]), ("script", recipe.merges[number - 1])):
            Path(folder, name).write_text(text)
        status, report, note = run(QWASM, f"{folder}/schema", folder, f"{folder}/script", recipe.pages)
    if status in REFUSED:
        print(f"merge of statement {number}: {note.strip()}", file=sys.stderr)
        sys.exit(status)
    return status, report.replace("QUERY 1 ", f"QUERY {number} ", 1)


def shards_of(folder):
    return sorted((path for path in folder.iterdir() if path.name.isdigit()), key=lambda path: int(path.name))


def run_all(recipe, folder, workers, dask):
    shards = shards_of(folder)
    for shard in shards:
        for name in (f"{table.lower()}.csv" for table in recipe.whole):
            if not (shard / name).exists():
                (shard / name).symlink_to(folder / name)
    answers = answers_of([(QWASM, str(recipe.schema.resolve()), str(shard), str(recipe.partial.resolve()), recipe.pages) for shard in shards], workers, dask)
    for shard, (status, _, note) in zip(shards, answers):
        if status in REFUSED:
            print(f"shard {shard.name}: {note.strip()}", file=sys.stderr)
            return status
    reports = [parts(report) for _, report, _ in answers]
    ends = []
    for number in range(1, len(recipe.merges) + 1):
        said = [(shard.name, *report[number - 1]) for shard, report in zip(shards, reports)]
        status, part = merged_statement(recipe, number, said)
        ends.append(status)
        sys.stdout.write(part)
    return max(ends, key=STATUSES.index)


def split(recipe, folder, count, seed):
    """Parts the records of the sharded table: in turn, or as a seed has it."""
    name, draw = f"{recipe.sharded.lower()}.csv", random.Random(seed)
    files = []
    for shard in range(count):
        (folder / str(shard)).mkdir(exist_ok=True)
        files.append(open(folder / str(shard) / name, "w", newline="", encoding="utf-8"))
    with open(folder / name, newline="", encoding="utf-8") as whole:
        records = csv.reader(whole)
        writers, header = [csv.writer(file, lineterminator="\n") for file in files], next(records)
        for writer in writers:
            writer.writerow(header)
        for number, record in enumerate(records):
            writers[number % count if seed is None else draw.randrange(count)].writerow(record)
    for file in files:
        file.close()
    return 0


def main():
    words = argparse.ArgumentParser()
    words.add_argument("command", choices=("split", "run"))
    words.add_argument("recipe", type=Path)
    words.add_argument("dir", type=Path)
    words.add_argument("count", type=int, nargs="?", default=3)
    words.add_argument("--random", type=int)
    words.add_argument("--workers", type=int, default=os.cpu_count())
    words.add_argument("--dask", metavar="ADDRESS")
    words = words.parse_args()
    recipe, folder = Recipe(words.recipe), words.dir.resolve()
    bad = list(refusals(recipe))
    if bad:
        print(*bad, sep="\n", file=sys.stderr)
        return 5
    if words.command == "split":
        return split(recipe, folder, words.count, words.random)
    return run_all(recipe, folder, words.workers, words.dask)


if __name__ == "__main__":
    sys.exit(main())
