#!/usr/bin/env python3
"""Compares `check` with wabt's `wasm-validate`, outside the gate: on the modules that `compile` writes for 100 statements, and on
these with one octet changed. Takes how many changed ones; needs wabt, and node, whose engine is asked where the two differ. That
engine takes later standards too. Modules that are out of the profile are counted apart."""
import os
import random
import subprocess
import sys
import tempfile

PROGRAM = os.path.join(os.path.dirname(os.path.abspath(__file__)), "../crates/qwasm/out/qwasm")
COLUMNS = [f"C{k}" for k in range(8)]
COMPARISONS = ["=", "<>", "<", "<=", ">", ">="]


def written(path, text):
    with open(path, "wb") as file:
        file.write(text)
    return path


def statement():
    items = random.choices(COLUMNS, k=random.randint(1, 8))
    number = random.choice([0, 1, 127, 128, 2**31, 10**18 - 1, random.randint(0, 10**18 - 1)])
    return f"SELECT {', '.join(items)} FROM T WHERE {random.choice(COLUMNS)} {random.choice(COMPARISONS)} {random.choice(['', '-'])}{number};"


def modules(room):
    schema = written(f"{room}/schema.sql", f"CREATE TABLE T ({', '.join(f'{c} INTEGER NOT NULL' for c in COLUMNS)});".encode())
    for _ in range(100):
        queries = written(f"{room}/queries.sql", statement().encode())
        yield subprocess.run([PROGRAM, "compile", schema, queries, "--statement", "1"], capture_output=True, check=True).stdout


def judged(room, octets):
    """Returns what `check` says, whether wasm-validate takes it, and what wasm-validate says."""
    file = written(f"{room}/module.wasm", octets)
    own = subprocess.run([PROGRAM, "check", file], capture_output=True, text=True)
    other = subprocess.run(["wasm-validate", "--disable-sign-extension", "--disable-mutable-globals", "--disable-saturating-float-to-int",
        "--disable-simd", "--disable-multi-value", "--disable-bulk-memory", "--disable-reference-types", file], capture_output=True, text=True)
    return (own.stdout or own.stderr).strip(), other.returncode == 0, other.stderr.strip()


def engine_takes(room):
    """Whether Node's engine takes the module that was judged last."""
    asked = "process.exit(WebAssembly.validate(require('fs').readFileSync(process.argv[1])) ? 0 : 1)"
    return subprocess.run(["node", "-e", asked, f"{room}/module.wasm"]).returncode == 0


def changed(octets):
    at = random.randrange(8, len(octets))
    return octets[:at] + bytes([random.choice([o for o in range(256) if o != octets[at]])]) + octets[at + 1 :]


def main(most):
    random.seed(1)
    counts, differing = {}, []
    with tempfile.TemporaryDirectory() as room:
        made = list(modules(room))
        for octets in made:
            says, taken, why = judged(room, octets)
            listed = subprocess.run(["wasm-objdump", "-d", f"{room}/module.wasm"], capture_output=True)
            if says != "valid" or not taken or listed.returncode:
                sys.exit(f"a compiled module: {says}; {why}")
        print(f"{len(made)} compiled modules: valid by all three")
        for _ in range(most):
            octets = changed(random.choice(made))
            says, taken, why = judged(room, octets)
            kind = f"check {'takes' if says == 'valid' else 'refuses'}, wasm-validate {'takes' if taken else 'refuses'}"
            if "out of profile" in says:
                kind = "out of the profile"
            elif (says == "valid") != taken:
                alone = engine_takes(room) == (says == "valid")
                kind += ", Node's engine as check" if alone else ", Node's engine as wasm-validate"
                differing += [] if alone else [(says, why, octets.hex())]
            counts[kind] = counts.get(kind, 0) + 1
    for kind, count in sorted(counts.items()):
        print(f"{count} {kind}")
    for says, why, octets in differing[:20]:
        print(f"differ: {says!r} against {why!r}: {octets}")


if __name__ == "__main__":
    main(int(sys.argv[1]) if len(sys.argv) > 1 else 10000)
