#!/usr/bin/env python3
"""What a reader must believe: the definitions that public clauses rest on.

From the clauses of public functions, through the imports of their files, to each definition of specs/ that they reach.
Prints a line for each spec file that has such definitions: their number and lines. With --write brings the numbers of
docs/BELIEVE.md up to date: a row for each file that the call rests on, and one for each crate whose files others rest on
besides. A file of the call that has no row gets one behind its crate's other rows, with its first comment as what it says.
With --check compares these with the tables of that page instead, and ends with 1 where they differ, where a public clause
rests on specs/Inner, or where the promise of docs/THEOREMS.md names a definition, a file, a function or clause, a test or an
edit that isn't there.
"""
import os
import re
import sys

TOP = os.path.join(os.path.dirname(os.path.abspath(__file__)), "..")
CRATES = os.path.join(TOP, "crates")
# Modules of qw_top that are public for the tests alone: what they promise is said again by the call.
STAGES = {"files.rt", "notes.rt", "output.rt", "program.rt", "queries.rt", "stop.rt"}
BESIDE = "Beside the call"
WORD = re.compile(r"[^\s(){}\[\],;]+")
IMPORT = re.compile(r"^\s*(?:ghost )?use (Rattle\.[^\s{]+?)(?:\.\{(.*)\}| as (\S+?));?$")


class Definition:
    def __init__(self, module, name, is_data):
        self.module, self.name, self.is_data, self.lines = module, name, is_data, []


class Scope:
    """The names that a file imports, and its aliases of modules."""

    def __init__(self, text):
        self.names, self.aliases = {}, {}
        for line in text.split("\n"):
            found = IMPORT.match(line)
            if not found:
                continue
            module, names, alias = found.groups()
            if alias:
                self.aliases[alias] = module
                continue
            for name in filter(None, (part.strip() for part in names.split(","))):
                there, _, here = name.partition(" as ")
                self.names[here or there] = (module, there)

    def named_in(self, text, local):
        """The definitions that a text names, by module and name."""
        text = re.sub(r"--.*", "", text)
        words = set(WORD.findall(text))
        for word in words:
            first, _, rest = word.partition(".")
            if first in self.aliases and rest:
                yield self.aliases[first], rest.split(".")[0]
            for name in (word, first):
                if name in self.names:
                    yield self.names[name]
                elif name in local:
                    yield local[name].module, name
        for name, target in list(self.names.items()) + [(n, (d.module, n)) for n, d in local.items()]:
            if "◌" in name and all(part in words for part in name.replace("◌", " ").split()):
                yield target


class Spec:
    def __init__(self, path):
        self.path = os.path.relpath(path, CRATES)
        crate, _, rest = self.path.split(os.sep, 2)
        self.module = f"Rattle.{crate}.specs.{rest[:-5].replace(os.sep, '.')}"
        text = open(path, encoding="utf-8").read()
        self.scope, self.definitions, self.names = Scope(text), [], {}
        comment = []
        for line in text.split("\n"):
            if line.startswith("--"):
                comment.append(line)
            elif not line or line.startswith(("use ", "infix")):
                comment = [] if not line and not comment else comment
            elif re.match(r"^(?:abbrev |unfoldable )?mutual$", line):
                self.add(line, True, comment)
                comment = []
                self.definitions[-1].lines.append(line)
            elif head := re.match(r"^(?:abbrev |unfoldable )?(?:pub )?(record |data )?(\S+)", line):
                if re.match(r"^(abbrev|unfoldable|pub|record|data) ", line):
                    self.add(head.group(2), head.group(1) == "data ", comment)
                comment = []
                self.definitions[-1].lines.append(line)
            else:
                last = self.definitions[-1]
                last.lines.append(line)
                inner = re.match(r"^ +(?:pub )?(?:data |record )?(\S+) :", line)
                if last.is_data and inner:
                    self.names[inner.group(1)] = last

    def add(self, name, is_data, comment):
        definition = Definition(self.module, name, is_data)
        definition.lines += comment
        self.definitions.append(definition)
        self.names[name] = definition


def files_below(folder, ending):
    for place, folders, names in os.walk(folder):
        folders[:] = sorted(f for f in folders if f != "out")
        for name in sorted(names):
            if name.endswith(ending):
                yield os.path.join(place, name)


def block(text, start):
    """The text between a brace and the one that closes it."""
    depth = 0
    for index in range(start, len(text)):
        depth += {"{": 1, "}": -1}.get(text[index], 0)
        if depth == 0:
            return text[start + 1 : index]
    return text[start + 1 :]


def public_files(crate):
    source = os.path.join(CRATES, crate, "src")
    root = next(f for f in (os.path.join(source, "lib.rt"), os.path.join(source, "main.rt")) if os.path.exists(f))
    found = [root]

    def follow(path, folder):
        text = open(path, encoding="utf-8").read()
        for name in re.findall(r"^pub (?:mod|use) ([a-z_0-9]+)", text, flags=re.M):
            inner = os.path.join(folder, name + ".rt")
            if os.path.exists(inner) and inner not in found:
                found.append(inner)
                follow(inner, os.path.join(folder, name))

    follow(root, source)
    return [f for f in found if not (crate == "qw_top" and os.path.basename(f) in STAGES)]


def clauses(path, only=None):
    """The clauses of a file's public functions, of a program's root those of all, and the values of its models."""
    text = open(path, encoding="utf-8").read()
    is_open = re.search(r"^pub trait ", text, flags=re.M) or os.path.basename(path) == "main.rt"
    heads = list(re.finditer(r"^ *(pub )?(?:pub\([a-z]+\) )?(?:const )?fn ([a-z_0-9]+)", text, flags=re.M))
    for head, after in zip(heads, heads[1:] + [None]):
        if not (head.group(1) or is_open) or (only and head.group(2) not in only):
            continue
        part = text[head.end() : after.start() if after else len(text)]
        for clause in re.finditer(r"^\s*(?:requires|ensures)\b[^{]*\{", part, flags=re.M):
            yield block(part, clause.end() - 1)


def models():
    """The value that clauses see of each type that has one."""
    found = {}
    for path in files_below(CRATES, ".rt"):
        text = open(path, encoding="utf-8").read()
        for head in re.finditer(r"^impl(?:<[^>]*>)? Model for (\w+)[^{]*\{", text, flags=re.M):
            value = re.search(r"ghost Value = \{(.*?)\};", block(text, head.end() - 1), flags=re.S)
            crate = os.path.relpath(path, CRATES).split(os.sep)[0]
            found[crate, head.group(1)] = list(Scope(text).named_in(value.group(1), {})) if value else []
    return found


def closure(specs, values, roots):
    found, seen, waiting = set(), set(), list(roots)
    while waiting:
        module, name = waiting.pop()
        if (module, name) in seen or not module.startswith("Rattle.qw"):
            continue
        seen.add((module, name))
        if ".specs.declared." in module:
            waiting += values.get((module.split(".")[1], name), [])
        elif module in specs and name in specs[module].names:
            definition = specs[module].names[name]
            if definition not in found:
                found.add(definition)
                spec = specs[module]
                waiting += spec.scope.named_in("\n".join(definition.lines), spec.names)
    return found


def rows(specs, found):
    for module in sorted(specs, key=lambda m: specs[m].path):
        here = [d for d in specs[module].definitions if d in found]
        if here:
            yield specs[module].path, len(here), sum(len(d.lines) for d in here)


def by_crate(lines):
    """Of each crate how many files, definitions and lines there are."""
    sums = {}
    for path, definitions, length in lines:
        files, before, lines_before = sums.get(path.split(os.sep)[0], (0, 0, 0))
        sums[path.split(os.sep)[0]] = (files + 1, before + definitions, lines_before + length)
    return [(crate, *counts) for crate, counts in sums.items()]


def first_comment(path):
    """What a spec file says of itself, up to its first stop."""
    text = open(os.path.join(CRATES, path), encoding="utf-8").read()
    comment = " ".join(line[3:] for line in text.partition("\nuse ")[0].split("\n") if line.startswith("-- "))
    return re.split(r"\.(?: |$)| \(ISO", comment)[0]


def written(page, told):
    """The page of what must be believed, with these rows; those of the call that stand there keep their places and words."""
    for part, lines in told.items():
        head, mark, rest = page.partition(f"## {part}\n")
        section, end, tail = rest.partition("\n## ")
        counts = f"{len(lines)} files, {sum(n for _, n, _ in lines)} definitions, {sum(n for _, _, n in lines)} lines"
        section = re.sub(r"\d+ files, \d+ definitions, \d+ lines", counts, section, count=1)
        if part == BESIDE:
            table = "\n".join(f"| `{crate}` | {files} | {d} | {n} |" for crate, files, d, n in by_crate(lines))
            page = head + mark + re.sub(r"(?:^\| `.*\|$\n?)+", table.replace("\\", r"\\") + "\n", section, count=1, flags=re.M) + end + tail
            continue
        row = re.compile(r"^\| `([^`]+)` \| \d+ \| \d+ \| (.*) \|$")
        sizes, made, places = {p: (d, n) for p, d, n in lines}, [], []
        for line in section.split("\n"):
            found = row.match(line)
            if not found:
                made.append(line)
            elif found.group(1) in sizes:
                d, n = sizes.pop(found.group(1))
                made.append(f"| `{found.group(1)}` | {d} | {n} | {found.group(2)} |")
        for path, (d, n) in sizes.items():
            places = [i for i, line in enumerate(made) if line.startswith(f"| `{path.split(os.sep)[0]}/")]
            places = places or [i for i, line in enumerate(made) if line.startswith("| `")]
            made.insert(places[-1] + 1, f"| `{path}` | {d} | {n} | {first_comment(path)} |")
        page = head + mark + "\n".join(made) + end + tail
    return page


def lacking():
    """What the rows of docs/THEOREMS.md name that isn't there."""
    read = lambda path: open(path, encoding="utf-8").read()
    specs = [(os.path.basename(path)[:-5], set(WORD.findall(read(path)))) for path in files_below(CRATES, ".antt") if "/specs/" in path]
    sources = {path.partition("/src/")[2] for path in files_below(CRATES, ".rt")}
    said = set(re.findall(r"\bfn (\w+)|\b(?:ensures|requires)\*? (\w+) ", "".join(map(read, files_below(CRATES, ".rt")))))
    words = {word for pair in said for word in pair if word} | {word for _, names in specs for word in names}
    edits = {os.path.basename(path)[:-5] for path in files_below(CRATES, ".edit")}
    promise = read(os.path.join(TOP, "docs", "THEOREMS.md")).partition("| words |")[2].partition("\n\n")[0]
    for row in promise.split("\n")[2:]:
        _, _, definition, carrier, test, edit, _ = row.split("|")
        for name in re.findall(r"`([^`]+)`", definition + carrier):
            if name.endswith(".rt"):
                is_there = name in sources
            elif "." in name:
                file, _, part = name.partition(".")
                is_there = any(file == spec and part in names for spec, names in specs)
            else:
                # a function, a clause, or a part of a definition
                is_there = name.rpartition("::")[2] in words or name == "clap"
            if not is_there:
                yield name
        for name in re.findall(r"`([\w:]+)`", test):
            if f"{name.replace('::', '/')}.rt" not in sources:
                yield f"the test {name}"
        for name in re.findall(r"`([\w-]+)`", edit):
            if name not in edits:
                yield f"the edit {name}"


def main():
    specs = {}
    for path in files_below(CRATES, ".antt"):
        if "/specs/" in path and os.path.basename(path) not in ("Lib.antt", "Inner.antt"):
            spec = Spec(path)
            specs[spec.module] = spec
    values = models()
    crates = [c for c in sorted(os.listdir(CRATES)) if c != "qw_tests"]

    def roots(crate, only=None):
        for path in public_files(crate):
            scope = Scope(open(path, encoding="utf-8").read())
            for clause in clauses(path, only):
                yield from scope.named_in(clause, {})

    call = closure(specs, values, roots("qw_top", {"qwasm"}))
    every = closure(specs, values, [r for c in crates for r in roots(c)]) | call
    told = {"The call": list(rows(specs, call)), BESIDE: list(rows(specs, every - call))}
    checks = "--check" in sys.argv
    place = os.path.join(TOP, "docs", "BELIEVE.md")
    if "--write" in sys.argv:
        page = written(open(place, encoding="utf-8").read(), told)
        open(place, "w", encoding="utf-8").write(page)
        return 0
    for part, lines in told.items():
        print(f"{part}: {len(lines)} files, {sum(n for _, n, _ in lines)} definitions, {sum(n for _, _, n in lines)} lines")
        for path, definitions, length in [] if checks else lines:
            print(f"  {path} {definitions} {length}")
    if not checks:
        return 0
    page = open(place, encoding="utf-8").read()
    bad = [f"{p}: a public clause rests on it" for part in told.values() for p, _, _ in part if "/Inner/" in p]
    for part, lines in told.items():
        section = page.partition(f"## {part}\n")[2].partition("\n## ")[0]
        if part == BESIDE:
            said = {(c, int(f), int(d), int(l)) for c, f, d, l in re.findall(r"^\| `([^`]+)` \| (\d+) \| (\d+) \| (\d+) \|$", section, flags=re.M)}
            bad += [f"{part}: docs/BELIEVE.md has another row for {c}" for c in sorted({row[0] for row in said ^ set(by_crate(lines))})]
            continue
        said = {(p, int(d), int(l)) for p, d, l in re.findall(r"^\| `([^`]+)` \| (\d+) \| (\d+) \|", section, flags=re.M)}
        bad += [f"{part}: {p} has {d} definitions in {l} lines, and docs/BELIEVE.md doesn't say so" for p, d, l in sorted(set(lines) - said)]
        bad += [f"{part}: docs/BELIEVE.md says {d} definitions in {l} lines of {p}" for p, d, l in sorted(said - set(lines))]
    bad += [f"docs/THEOREMS.md names {it}, which isn't there" for it in lacking()]
    for line in bad:
        print(f"believe: {line}")
    return 1 if bad else 0


if __name__ == "__main__":
    sys.exit(main())
