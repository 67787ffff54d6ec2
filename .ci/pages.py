#!/usr/bin/env python3
"""The table of files on each crate's page, crates/*/README.md, made of what each file says of itself.

A file's row has the first sentence of its first comment, up to a colon or semicolon and without references: `//!` in code, or `//` at its top;
where there is none the first `///`, with the name of what it stands at; `--` in definitions and proofs. Lemmas and inner definitions, which a reader of the crate need not know, have one row
a folder, but each file must say what it holds. The table stands between two marks. Without words this writes the tables, and makes a page where
a crate has none; with --check it compares, and ends with 1 where a table differs or a file has no such comment.
"""
import os
import re
import sys

TOP = os.path.join(os.path.dirname(os.path.abspath(__file__)), "..")
CRATES = os.path.join(TOP, "crates")
FIRST, LAST = "<!-- the files, by .ci/pages.py -->", "<!-- end of the files -->"
# Folders whose files have one row together.
TOLD_TOGETHER = {"specs/Inner/": "definitions for the crate's own contracts alone", "proofs/": "lemmas"}
# Files that only list others.
LISTS = {"lib.rt", "Lib.antt", "Inner.antt"}
# References, which a reader finds in the file.
REFERENCE = re.compile(r" \((?:ISO/IEC|Neumann|Fowler|WebAssembly|RFC|docs/)[^()]*\)")
ITEM = re.compile(r"\s*(?:#\[.*\]\s*)*pub(?:\(crate\))? (?:const )?(?:struct|enum|trait|fn|type) (\w+)")


def read(path):
    with open(path, encoding="utf-8") as file:
        return file.read()


def files_of(crate):
    """Code, then definitions, then those that mirror code, then lemmas; the folders of proofs are the proofs of functions."""
    for folder, ending, is_deep in (("src", ".rt", True), ("specs", ".antt", False), ("specs/Inner", ".antt", True), ("proofs", ".antt", False)):
        found = []
        for place, _, names in os.walk(os.path.join(CRATES, crate, folder)):
            if is_deep or place == os.path.join(CRATES, crate, folder):
                found += [os.path.relpath(os.path.join(place, name), os.path.join(CRATES, crate)) for name in names]
        yield from sorted(path for path in found if path.endswith(ending) and os.path.basename(path) not in LISTS)


def sentence(text):
    """The first sentence of a text, without its full stop."""
    text = " ".join(text.split())
    for stop in re.finditer(r"[.:](?= [A-Z`]|$)", text):
        before = text[: stop.start()]
        if before.count("(") == before.count(")") and (stop.group() == "." or not text[stop.end() :]):
            return before
    return text


def short(said):
    """A sentence without its references, up to the first colon or semicolon that no bracket, quote or list of few words encloses."""
    said = REFERENCE.sub("", said)
    for stop in re.finditer(r"[:;] ", said):
        before = said[: stop.start()]
        if before.count("(") == before.count(")") and before.count("`") % 2 == 0 and len(re.sub("`[^`]*`", "x", before).split()) > 2:
            return before
    return said


def block(lines, mark):
    """The first paragraph that is written in such comments, and the line after the block."""
    for index, line in enumerate(lines):
        if line.strip() == mark or line.strip().startswith(mark + " "):
            end = index
            while end < len(lines) and lines[end].strip().startswith(mark):
                end += 1
            said = [part.strip()[len(mark) :].strip() for part in lines[index:end]]
            return " ".join(said[: said.index("")] if "" in said else said), lines[end:]
    return None, []


def said_of(path):
    lines = read(path).split("\n")
    if path.endswith(".antt"):
        said, _ = block(lines, "--")
    else:
        said, _ = block(lines, "//!")
    if said is None and lines[0].startswith("// "):
        said, _ = block(lines, "//")
    name = ""
    if said is None and path.endswith(".rt"):
        said, after = block(lines, "///")
        while said and not (item := ITEM.match("\n".join(after))):
            said, after = block(after, "///")
        name, said = (f"`{item.group(1)}`: ", said[:1].lower() + said[1:]) if said else ("", said)
    return said and name + short(sentence(said)).replace("|", "\\|")


def table_of(crate):
    rows, silent, together = ["| file | what it holds |", "|---|---|"], [], {}
    for path in files_of(crate):
        said = said_of(os.path.join(CRATES, crate, path))
        if said is None:
            silent.append(f"crates/{crate}/{path} has no comment that says what it holds")
        folder = next((it for it in TOLD_TOGETHER if path.startswith(it)), None)
        if folder:
            together[folder] = together.get(folder, 0) + 1
        else:
            rows.append(f"| `{path}` | {said or ''} |")
    rows += [f"| `{folder}` | {count} file{'s' if count > 1 else ''} of {TOLD_TOGETHER[folder]} |" for folder, count in together.items()]
    return "\n".join([FIRST, *rows, LAST]), silent


def page_of(crate, table):
    """The page with this table in its place, before the first part that follows the introduction where there was none."""
    path = os.path.join(CRATES, crate, "README.md")
    if not os.path.exists(path):
        root = next(f for f in ("lib.rt", "main.rt") if os.path.exists(os.path.join(CRATES, crate, "src", f)))
        said, _ = block(read(os.path.join(CRATES, crate, "src", root)).split("\n"), "//!")
        return None, f"# {crate}\n\n{said}\n\n{table}\n"
    page = read(path)
    if FIRST not in page:
        return page, f"{page.rstrip()}\n\n{table}\n"
    before, _, rest = page.partition(FIRST)
    return page, before + table + rest.partition(LAST)[2]


def main():
    bad = []
    for crate in sorted(os.listdir(CRATES)):
        if not os.path.isdir(os.path.join(CRATES, crate, "src")):
            continue
        table, silent = table_of(crate)
        old, new = page_of(crate, table)
        bad += silent
        if old == new:
            continue
        if "--check" in sys.argv:
            bad.append(f"crates/{crate}/README.md isn't what .ci/pages.py writes")
        else:
            with open(os.path.join(CRATES, crate, "README.md"), "w", encoding="utf-8") as file:
                file.write(new)
    for line in bad:
        print(f"pages: {line}")
    return 1 if bad else 0


if __name__ == "__main__":
    sys.exit(main())
