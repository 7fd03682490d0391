#!/usr/bin/env python3
"""Holds docs/PROMISES.md to the tree. Each name of several words is that of a theorem, a definition, a must-fail edit, a function or a crate that is
there; each theorem is declared in the file that it gives where it gives one; each must-fail edit that it names is there, and each that is there is
named; each public function of a crate for callers stands in it. The last line is 'N passed, M failed'.
"""
import pathlib
import re

ROOT = pathlib.Path(__file__).resolve().parent.parent.parent
CRATES = ROOT / "crates"
TEXT = (ROOT / "docs" / "PROMISES.md").read_text()
NAMED = set(re.findall(r"`([^`]+)`", TEXT))

# `law` or `law`, `law` and `law`, and then (crate, `File`) or | crate, `File`, `File` |
GIVEN = re.compile(r"((?:`[\w-]+`(?:, | and |,\n))*`[\w-]+`)\s(?:\(|\| )(\w+), ((?:`[\w.]+`(?:, )?)+)(?:\)| \|)")

INSIDE = {"ground", "halving", "sweep", "digits", "within", "plan", "entries", "c_answers", "c_structs"}
PROGRAMS = {"figures", "whelk", "print"}

passed = failed = 0


def check(what, holds):
    """One check."""
    global passed, failed
    if holds:
        passed += 1
    else:
        failed += 1
        print(f"failed: {what}")


def declared(files):
    """The public names that some files of laws or definitions declare."""
    lines = "\n".join(file.read_text() for file in files)
    return set(re.findall(r"^\s*(?:abbrev |unfoldable )?pub (?:record |data )?([^\s:]+)", lines, re.M))


def public_functions(crate):
    """The functions of a crate that a caller can name: those of its public modules, and methods."""
    modules = {"lib"} | set(re.findall(r"^pub mod (\w+);", (crate / "src" / "lib.rt").read_text(), re.M))
    source = "\n".join((crate / "src" / f"{module}.rt").read_text() for module in modules)
    return set(re.findall(r"^\s*pub fn (\w+)", source, re.M))


def functions():
    """The functions of all crates, public or not."""
    return {name for file in CRATES.glob("*/src/**/*.rt") for name in re.findall(r"\bfn (\w+)", file.read_text())}


everywhere = declared([*CRATES.glob("*/specs/**/*.antt"), *CRATES.glob("*/proofs/**/*.antt")])
edits = {file.stem for file in CRATES.glob("*/must-fail/*.edit")}

there_is = everywhere | edits | functions() | {crate.name for crate in CRATES.iterdir()}
for name in sorted(name for name in NAMED if re.fullmatch(r"\w+(?:[-_]\w+)+", name)):
    check(f"{name} is a theorem, a definition, an edit, a function or a crate", name in there_is)

for names, crate, files in GIVEN.findall(TEXT):
    there = [CRATES / crate / "proofs" / f"{file}.antt" for file in re.findall(r"`([\w.]+)`", files)]
    there += [CRATES / crate / "specs" / f"{file.replace('.', '/')}.antt" for file in re.findall(r"`([\w.]+)`", files)]
    found = declared(file for file in there if file.exists())
    for name in re.findall(r"`([\w-]+)`", names):
        check(f"{name} is in {crate}, {files}", name in found)

for names in re.findall(r"\((`\w+_\w+`(?:, `\w+`)*)\)", TEXT):
    for name in re.findall(r"`(\w+)`", names):
        check(f"the edit {name} is there", name in edits)
for name, crate in re.findall(r"\(`(\w+_\w+)` of `(\w+)`", TEXT):
    check(f"the edit {name} is in {crate}", (CRATES / crate / "must-fail" / f"{name}.edit").exists())
for name in sorted(edits):
    check(f"the edit {name} is named", name in NAMED)

for crate in sorted(CRATES.iterdir()):
    if crate.name not in INSIDE | PROGRAMS and (crate / "src" / "lib.rt").exists():
        for name in sorted(public_functions(crate)):
            check(f"{crate.name}::{name} is named", re.search(rf"`(?:\w+::)?{name}[`(]", TEXT))

for source in (CRATES / "host_c" / "src").glob("*.rt"):
    for name in re.findall(r'pub extern "C" fn (\w+)', source.read_text()):
        check(f"the export {name} is named", f"| `{name}` |" in TEXT)

print(f"{passed} passed, {failed} failed")
raise SystemExit(failed > 0 or passed == 0)
