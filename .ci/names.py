#!/usr/bin/env python3
"""Whether what documents name is there: docs/*.md, README.md, CONTRIBUTING.md and each crate's page.

Ends with 1 where one of them names a crate that isn't there; where it names in backticks a path, a definition as `File.name`, an item of
code as `path::item`, or a name with an underscore, and the tree has none such; where a file of src/ or specs/ has no row on its crate's
page, a row names no file, or a crate has no line in docs/ARCHITECTURE.md and docs/PROVED.md; where docs/THEOREMS.md or docs/RUNS.md cites no heading
of cases in qw_run_cases, or one that isn't there, or neither cites one that is; and where docs/GATE.md or README.md states other counts than
the tree has. docs/PLANTED.md is a record of what was tried once, so of it only crates and paths are looked up.
"""
import os
import re
import sys

TOP = os.path.join(os.path.dirname(os.path.abspath(__file__)), "..")
PATH = re.compile(r"[\w.*-]+(?:/[\w.*-]+)*/?")
ENDINGS = (".rt", ".antt", ".md", ".py", ".mjs", ".edit", ".txt", ".wat", ".sums")
DECLARED = re.compile(r"^\s*(?:(?:abbrev|unfoldable|pub|data|record|open)\s+)*([^\s:(){}]+)(?:\s+[({].*?)?\s+:(?:\s|$)", flags=re.M)
ITEM = re.compile(r"\b(?:fn|struct|enum|trait|const|static|type|mod|ensures\*?|requires\*?|ghost) (\w+)|^\s+(\w+)(?:,|\(.*\),|\s\{)", flags=re.M)


def tree():
    """The paths of the repository from its top, but for what builds leave."""
    for place, folders, names in os.walk(TOP):
        folders[:] = [f for f in folders if f not in ("out", ".git", "__pycache__")]
        yield from (os.path.relpath(os.path.join(place, name), TOP) for name in folders + names)


def read(path):
    with open(os.path.join(TOP, path), encoding="utf-8") as file:
        return file.read()


class Tree:
    def __init__(self):
        self.paths = set(tree())
        self.crates = {p.split("/")[1] for p in self.paths if re.fullmatch(r"crates/\w+/src", p)}
        # each path by all of its ends, with its file's ending and without
        self.ends = set()
        for path in self.paths:
            parts = path.split("/")
            for start in range(len(parts)):
                end = "/".join(parts[start:])
                self.ends |= {end, os.path.splitext(end)[0] if path.endswith((".rt", ".antt", ".edit")) else end}
        self.modules, self.code, self.words = {}, {}, set()
        for path in self.paths:
            if path.endswith((".rt", ".antt")):
                text, name = read(path), os.path.basename(path).partition(".")[0]
                self.words |= set(re.findall(r"[^\W\d][\w']*", text))
                if path.endswith(".antt"):
                    self.modules.setdefault(name, []).append(set(DECLARED.findall(text)))
                else:
                    items = {word for pair in ITEM.findall(text) for word in pair if word}
                    # what a file declares is found by its name, by its crate's, and by the names of its folders and types
                    heads = {name, *path.split("/")[1:-1], *re.findall(r"\b(?:struct|enum|trait|impl(?:<.*?>)?|for) (\w+)", text)}
                    for head in heads:
                        self.code.setdefault(head, set()).update(items | {name})
        self.words |= {os.path.basename(p).partition(".")[0] for p in self.paths}
        scripts = (p for p in self.paths if p.startswith((".ci/", "examples/", "package/")) and os.path.isfile(os.path.join(TOP, p)))
        self.words |= {w for p in scripts for w in re.findall(r"\w+", read(p))}

    def has_definition(self, name):
        """`File.name`, or a record's field as `Record.field`."""
        head, _, rest = name.partition(".")
        part = rest.partition(".")[0]
        there = self.modules.get(head) or [names for spec in self.modules.values() for names in spec if head in names]
        return any(part in names for names in there)

    def has_item(self, name):
        parts = name.split("::")
        return all(head not in self.code or part in self.code[head] for head, part in zip(parts, parts[1:])) and (
            parts[0] in self.code or parts[-1] in self.words
        )

    def lacks(self, name, page, line):
        """Whether a name in backticks is of one of these kinds, and isn't there. A crate's page names its own files, or those of a
        crate that the line names."""
        if re.search(r"\b[A-Z]{2,}\b", name) or name.startswith(("/", "out/", "crates/qwasm/out")):
            return False
        if PATH.fullmatch(name) and (name.endswith(ENDINGS) or re.match(r"(?:crates|docs|\.ci|src|specs|proofs|data|examples)/", name)):
            if "*" in name:
                return not any(map(re.compile(re.escape(name).replace(r"\*", "[^/]*")).fullmatch, self.ends))
            is_own = page.startswith("crates/") and re.match(r"(?:src|specs|proofs)/", name)
            tops = [os.path.dirname(page) + "/", *(f"crates/{c}/" for c in re.findall(r"\bqw_\w+", line))] if is_own else [""]
            return not any(top + name.rstrip("/") in self.ends for top in tops)
        if page == "docs/PLANTED.md":
            return False
        if re.fullmatch(r"[A-Z]\w*\.[^\W\d][\w'-]*(?:\.\w+)?", name):
            return not self.has_definition(name)
        if re.fullmatch(r"\w+(?:::\w+)+", name):
            return not self.has_item(name)
        return bool(re.fullmatch(r"[A-Za-z]\w*_\w+", name)) and name not in self.words


def names(there, page):
    """What a document names that isn't there, line by line."""
    for number, line in enumerate(read(page).split("\n"), 1):
        for crate in re.findall(r"(?<![\w/-])qw_[a-z_]*[a-z]\b(?!\*)", line):
            if crate not in there.crates:
                yield f"{page}:{number} names {crate}, which is no crate"
        for name in re.findall(r"`([^`]+)`", line):
            if name not in there.crates and there.lacks(name, page, line):
                yield f"{page}:{number} names {name}, which isn't there"


def rows(there, crate):
    """Files that have no row on their crate's page, and rows that name no file."""
    page = f"crates/{crate}/README.md"
    said = set(re.findall(r"^\| `((?:src|specs|proofs)/[^`]+)` \|", read(page), flags=re.M)) if page in there.paths else set()
    files = {p.split("/", 2)[2] for p in there.paths if re.match(rf"crates/{crate}/(?:src|specs|proofs)/", p)}
    wanted = {f for f in files if re.match(r"(?:src|specs)/(?!Inner)", f) and f.endswith((".rt", ".antt"))}
    for file in sorted(wanted - said - {"src/lib.rt", "specs/Lib.antt"}):
        if not file.endswith("/Inner.antt"):
            yield f"{page} has no row for {file}"
    for file in sorted(said - files):
        # a folder's row stands for the files in it
        if not (file.endswith("/") and any(f.startswith(file) for f in files)):
            yield f"{page} has a row for {file}, which isn't there"


def cases(pages):
    """Headings of cases of whole calls that documents cite and that aren't there, citations that name none, and headings that none cites."""
    headings = set(re.findall(r"^\n# (.+?)(?:: .*)?$", read("crates/qw_run_cases/stdin"), flags=re.M))
    cells = [cell for page in pages for cell in re.findall(r"`qw_run_cases/stdin`(?: \(([^)]*)\))?", read(page))]
    cited = {heading for cell in cells for heading in cell.split("; ")}
    for heading in sorted(cited - headings):
        yield f"{' or '.join(pages)} cites cases under {heading or 'no heading'}, which isn't one of qw_run_cases"
    for heading in sorted(headings - cited):
        yield f"{' and '.join(pages)} cite no cases under {heading}"


def counts(there):
    """Counts in docs/GATE.md of what is there today."""
    edits = {kind: sum(p.endswith(".edit") and f"/{kind}/" in p for p in there.paths) for kind in ("must-fail", "planted")}
    specs = sum(bool(re.match(r"crates/\w+/specs/(?!Inner)[A-Z]\w*\.antt$", p)) and not p.endswith("/Lib.antt") for p in there.paths)
    page = read("docs/GATE.md")
    for what, count in (
        (r"(\d+) edits of `must-fail`", edits["must-fail"]),
        (r"(\d+) of `planted`", edits["planted"]),
        (r"(\d+) files of definitions", specs),
        (r"in (\d+) crates\.", len(there.crates)),
    ):
        found = re.search(what, page)
        if not found or int(found.group(1)) != count:
            yield f"docs/GATE.md should count {count}, where it says {found.group(0) if found else what}"
    said = f"({edits['must-fail']} of {sum(edits.values())};"
    if said not in read("README.md"):
        yield f"README.md should count the planted errors that the gate tries as {said[1:-1]}"


def main():
    there = Tree()
    documents = sorted(p for p in there.paths if re.fullmatch(r"docs/\w+\.md|(?:README|CONTRIBUTING)\.md|crates/\w+/README\.md", p))
    bad = [line for page in documents for line in names(there, page)]
    bad += [line for crate in sorted(there.crates) for line in rows(there, crate)]
    bad += cases(("docs/THEOREMS.md", "docs/RUNS.md"))
    for page in ("docs/ARCHITECTURE.md", "docs/PROVED.md"):
        told = "\n".join(line.split(" | ")[0] for line in read(page).split("\n") if line.startswith("| `"))
        bad += [f"{page} has no line for {crate}" for crate in sorted(there.crates) if f"`{crate}`" not in told]
    bad += counts(there)
    for line in bad:
        print(f"names: {line}")
    return 1 if bad else 0


if __name__ == "__main__":
    sys.exit(main())
