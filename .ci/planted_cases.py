"""A crate of a few lines with bodies of each kind, for `.ci/planted --self-test`; what has to become of each; and a prover of such a crate."""
import os
import re

CRATE = {
    "crates.txt": "small:\n",
    "crates/small/src/lib.rt": """\
// A small crate, whose bodies are tried.
#![tactic(auto)]

mod left;
mod parity;
mod right;

pub use left::seven_more;
pub use parity::is_even;
pub use right::six_more;
""",
    "crates/small/src/left.rt": """\
// Sums, one of which has the name of one in another file.
ghost use Rattle.std.specs.Prelude.{◌≡◌, ◌+◌, ◌<◌};
use crate::right::three_more;

pub(crate) const STEP: u64 = 1;

fn next(x: u64) -> u64
    requires { x < 100 }
    ensures { result ≡ x + 2 }
{
    let y = x + STEP;
    y + 1
}

fn four_more(x: u64) -> u64
    requires { x < 90 }
    ensures { result ≡ x + 4 }
{
    let y = next(x);
    y + 2
}

/// The number that is seven greater.
pub fn seven_more(x: u64) -> u64
    requires { x < 50 }
    ensures { result ≡ x + 7 }
{
    let y = four_more(x);
    three_more(y)
}
""",
    "crates/small/src/right.rt": """\
// Sums of another file.
ghost use Rattle.std.specs.Prelude.{◌≡◌, ◌+◌, ◌<◌};
use crate::left::STEP;

fn next(x: u64) -> u64
    requires { x < 100 }
    ensures { result ≡ x + 1 }
{
    x + STEP
}

pub(crate) fn three_more(x: u64) -> u64
    requires { x < 90 }
    ensures { result ≡ x + 3 }
{
    next(x) + 2
}

/// Keeps a method.
pub struct Sums {}

impl Sums {
    fn three(x: u64) -> u64
        requires { x < 100 }
        ensures { result ≡ x + 3 }
    {
        x + 3
    }
}

/// The number that is six greater.
pub fn six_more(x: u64) -> u64
    requires { x < 50 }
    ensures { result ≡ x + 6 }
{
    Sums::three(x) + 3
}
""",
    "crates/small/src/parity.rt": """\
// Two functions that call one another.
ghost use Rattle.std.specs.Prelude.{◌≤◌};

/// 1 of an even number, else 0.
#[cycle(parity)]
pub fn is_even(x: u64) -> u64
    ensures { result ≤ 1 }
{
    if x == 0 { 1 } else { is_odd(x - 1) }
}

#[cycle(parity)]
fn is_odd(x: u64) -> u64
    ensures { result ≤ 1 }
{
    if x == 0 { 0 } else { is_even(x - 1) }
}
""",
    "crates/small/proofs/parity/+parity/Invariants.antt": """\
use Rattle.small.proofs.parity.+parity.Given as goal

abbrev pub decreases-is_even : goal.decreases-is_even
decreases-is_even l = l.x

abbrev pub decreases-is_odd : goal.decreases-is_odd
decreases-is_odd l = l.x
""",
}

# by the name of each edit: its first line, its file, its old and its new text, and what has to become of it
EDITS = {
    "a_constant_breaks": ("`src/left.rt: next`", "src/left.rt", "u64 = 1;", "u64 = 2;", "refused"),
    "a_constant_of_two": ("`next`", "src/left.rt", "u64 = 1;", "u64 = 3;", "BAD: `next` fits several functions"),
    "breaks_beside_others": ("`next`", "src/left.rt", "y + 1", "y + 2", "refused"),
    "changes_nothing_beside_others": ("`next`", "src/left.rt", "y + 1", "1 + y", "let through"),
    "changes_a_contract": ("`next`", "src/left.rt", "result ≡ x + 2", "result ≡ x + 3", "BAD: it changes a contract"),
    "hidden_by_what_it_calls": ("`four_more`", "src/left.rt", "y + 2", "y + 3", "refused"),
    "hidden_changes_nothing": ("`left::seven_more`", "src/left.rt", "let y = four_more(x);", "let y = four_more(x) + 0;", "let through"),
    "in_a_cycle_breaks": ("`is_even`", "src/parity.rt", "{ 1 }", "{ 2 }", "refused"),
    "in_a_cycle_changes_nothing": ("`is_odd`", "src/parity.rt", "{ 0 }", "{ 0 + 0 }", "let through"),
    "method_breaks": ("`Sums::three`", "src/right.rt", "        x + 3", "        x + 2", "refused"),
    "names_another_file": ("`src/right.rt: next`", "src/left.rt", "y + 1", "y + 2", "BAD: it names src/right.rt: next"),
    "names_its_caller": ("`seven_more`", "src/left.rt", "y + 2", "y + 3", "BAD: it names src/left.rt: seven_more"),
    "names_nothing": ("`nowhere`", "src/left.rt", "y + 1", "y + 2", "BAD: it names `nowhere`"),
    "of_one_name_changes_nothing": ("`next`", "src/right.rt", "x + STEP", "STEP + x", "let through"),
    "of_one_name_is_no_code": ("`next`", "src/right.rt", "x + STEP", "x + nothing", "BAD: no check of it"),
    "text_stands_nowhere": ("`next`", "src/left.rt", "y + 9", "y + 2", "BAD: its old text"),
}


def write_crate(top):
    """Writes the crate and its edits below a folder, and returns the crate's own."""
    files = dict(CRATE)
    for name, (label, file, old, new, _) in EDITS.items():
        files[f"crates/small/planted/{name}.edit"] = f"# {label}, of the small crate.\nfile: {file}\nold: {old}\nnew: {new}\n"
    for path, text in files.items():
        os.makedirs(os.path.dirname(os.path.join(top, path)) or top, exist_ok=True)
        with open(os.path.join(top, path), "w", encoding="utf-8") as file:
            file.write(text)
    return os.path.join(top, "crates/small")


def differences(told):
    """What was told of the edits, where it isn't what has to be told."""
    wanted = {name: edit[-1] for name, edit in EDITS.items()}
    lines = [f"{name}: no edit, or not told of" for name in sorted(set(wanted) ^ set(told))]
    return lines + [f"{name}: {told[name]}, and has to be {wanted[name]}" for name in sorted(set(wanted) & set(told)) if not told[name].startswith(wanted[name])]


class SmallProver:
    """Tells of the functions of such a crate what the kit's prover does, in its words, by computing them at some numbers. A call stands for
    what its contract says of it, so each function is judged alone, but one that calls another that fails isn't judged."""

    parts, name = ("src", "specs", "proofs"), "small"

    def __init__(self, folder, source):
        self.folder, self.source = folder, source

    def begin(self, room):
        pass

    def check(self, room, names):
        source = self.source(room)
        constants = {it[0]: int(re.search(r"= (\d+);", it[4]).group(1)) for it in source.constants}
        try:
            own = {it: self.holds(it, constants, source) for it in source.functions}
        except NameError as error:
            return f"src: error: {error}\n"
        cycles = {it: self.cycle(it, room) for it in own}
        failing = {it for it in own if not all(own[other] for other in own if cycles[other] == cycles[it])}
        lines = []
        for it in source.functions:
            hiding = self.hiding(it, failing, cycles)
            what = "no proof: expected answers" if it in failing else f"no proof: it calls `{hiding}`, which is not proved" if hiding else "proved"
            lines.append(f"fn {self.printed(it)}: {what}")
        return "\n".join([*lines, f"only={len(names)} proved=0", ""])

    def printed(self, it):
        return "::".join([self.name, *it.printed])

    def holds(self, it, constants, source):
        """Whether the body comes to what the contract says, at some numbers."""
        body = re.sub(r"if (.*) \{ (.*) \} else \{ (.*) \}", r"(\2) if \1 else (\3)", it.text[it.text.rindex("\n" + it.text[: len(it.text) - len(it.text.lstrip())] + "{") + 1 :])
        *lets, last = [line.strip() for line in body.split("\n") if line.strip() not in ("{", "}")]
        for x in range(4):
            known = {**constants, "x": x, **{other.name: self.meant(other) for other in self.called(it, source.functions)}}
            for line in lets:
                name, value = re.match(r"let (\w+) = (.*);", line).groups()
                known[name] = eval(value, known)
            found = eval(last.replace("::", "_"), {**known, **{f"{other.owner}_{other.name}": self.meant(other) for other in source.functions}})
            if "≤" in it.text and found > 1 or "≡" in it.text and found != self.meant(it)(x):
                return False
        return True

    def meant(self, it):
        """What a contract says of a function's result."""
        more = re.search(r"result ≡ x \+ (\d+)", it.text)
        return (lambda x: x + int(more.group(1))) if more else (lambda x: 1)

    def called(self, it, functions):
        """The functions that one names: of two of one name, that of its own file."""
        found = [other for other in functions if other is not it and re.search(rf"\b{other.name}\(", it.text[it.text.index("{") :])]
        return sorted(found, key=lambda other: other.file == it.file)

    def cycle(self, it, room):
        """A name of the functions that one is proved with."""
        with open(os.path.join(room, it.file), encoding="utf-8") as file:
            found = re.search(rf"#\[cycle\((\w+)\)\]\n(?:pub )?fn {it.name}\b", file.read())
        return found.group(1) if found else self.printed(it)

    def hiding(self, it, failing, cycles):
        """A function that fails, of those that one calls, and that those call."""
        seen, left = {it}, [it]
        while left:
            one = left.pop()
            for other in {found.name: found for found in self.called(one, cycles)}.values():
                if cycles[other] != cycles[it] and other not in seen:
                    if other in failing:
                        return self.printed(other)
                    seen.add(other)
                    left.append(other)
        return None
