#!/usr/bin/env python3
"""A header of include/ by itself: header.py HEADER ARCHIVE COMPILER..

The functions that it declares, those that the archive has, those of docs/PROMISES.md and those that some tests call are one list. It compiles
without a warning as C and as C++, and a call that it could know to be wrong gets one. The last line is 'N passed, M failed'.
"""
import pathlib
import re
import shutil
import subprocess
import sys

ROOT = pathlib.Path(__file__).resolve().parent.parent.parent
HEADER, ARCHIVE, *COMPILER = sys.argv[1:]
WARNINGS = ["-Wall", "-Wextra", "-Wconversion", "-Wsign-conversion", "-Wshadow", "-Wundef", "-pedantic", "-Werror"]
LANGUAGES = [
    ["-xc", "-std=c99", "-Wstrict-prototypes"],
    ["-xc", "-std=c17", "-Wstrict-prototypes"],
    ["-xc++", "-std=c++98", "-Wold-style-cast"],
    ["-xc++", "-std=c++11", "-Wold-style-cast"],
    ["-xc++", "-std=c++17", "-Wold-style-cast", "-Wuseless-cast"],
]
# where the header's functions are to be, with the pattern that finds them there
PLACES = {
    "whelkhollow.h": [
        ("docs/PROMISES.md", r"^\| `(whelk_\w+)` \|"),
        ("tests/host/guard_test.c", r'\{"(whelk_\w+)", 0, 0\}'),
        ("tests/host/smoke.py", r'^    \("(whelk_\w+)",'),
    ],
    "whelkhollow_clue.h": [
        ("docs/PROMISES.md", r"^\| `(whelk_clue_\w+)\(\.\.\)` \|"),
        ("tests/clue/guard_test.c", r'\{"(whelk_\w+)", 0, 0\}'),
    ],
}[HEADER]
# what a function's body does, and the warning that it gets, if any
ENTRIES = "uint64_t k[2] = {0}; uint16_t h[2] = {0}; uint8_t m[2] = {0};"
BODIES = {"whelkhollow.h": [
    ("uint8_t b[6] = {0}, l[4]; return whelk_lookup_hop(whelk_run_lookup(b, 6, 0, l, 4)) + (whelk_address_of(l) > 0);", None),
    ("uint64_t k[2]; uint16_t h[2]; uint8_t r[2], f[1] = {0}; return whelk_import(f, 1, k, 2, h, 2, r, 2).rows == 1;", None),
    ("uint64_t k[2]; uint16_t h[2], r[5]; uint32_t s[5]; return whelk_build(0, k, 0, h, 0, s, 5, r, 5) == 1;", None),
    ("return whelk_pull(0, 0, 0).found == 0;", "nonnull"),
    ("uint8_t b[6] = {0}, l[4]; whelk_run_lookup(b, 6, 0, l, 4); return 0;", "unused-result"),
    ("uint8_t b[5] = {0}, l[4]; return whelk_lookup_hop(whelk_run_lookup(b, 6, 0, l, 4));", "stringop-overread"),
    ("uint8_t b[6], l[4]; return whelk_lookup_hop(whelk_run_lookup(b, 6, 0, l, 4));", "uninitialized"),
    ("uint8_t b[6] = {0}, l[3]; return whelk_lookup_hop(whelk_run_lookup(b, 6, 0, l, 4));", "stringop-overflow"),
    ("uint64_t k[1] = {0}; uint16_t h[1] = {1}, r[3]; uint32_t s[2]; return whelk_build(1, k, 1, h, 1, s, 3, r, 3) == 1;", "stringop-overflow"),
], "whelkhollow_clue.h": [
    (f"{ENTRIES} return whelk_clue_hop(whelk_clue_quick(k, 2, h, 2, m, 2, 8, 0)) > 0;", None),
    (f"{ENTRIES} uint64_t e[2]; uint16_t g[2]; uint32_t a[2] = {{0}}; uint8_t n[2];"
     " return whelk_clue_build(0, k, 0, h, 0, m, 2, a, 2, e, 2, g, 2, n, 2).count == 1;", None),
    ("return whelk_clue_is_final(whelk_clue_quick(0, 0, 0, 0, 0, 0, 8, 0));", "nonnull"),
    (f"{ENTRIES} whelk_clue_quick(k, 2, h, 2, m, 2, 8, 0); return 0;", "unused-result"),
    (f"{ENTRIES} return whelk_clue_is_final(whelk_clue_quick(k, 3, h, 2, m, 2, 8, 0));", "stringop-overread"),
    (f"{ENTRIES} return whelk_clue_is_final(whelk_clue_quick(k, 2, h, 3, m, 2, 8, 0));", "stringop-overread"),
    (f"{ENTRIES} return whelk_clue_is_final(whelk_clue_quick(k, 2, h, 2, m, 3, 8, 0));", "stringop-overread"),
    (f"{ENTRIES} return whelk_clue_lookup_number(whelk_clue_lookup(2, k, 2, h, 2, k, 2, h, 2, m, 3, 8, 0));", "stringop-overread"),
    ("uint64_t k[2]; uint16_t h[2] = {0}; uint8_t m[2] = {0}; return whelk_clue_is_final(whelk_clue_quick(k, 2, h, 2, m, 2, 8, 0));", "uninitialized"),
    (f"{ENTRIES} uint64_t e[2]; uint16_t g[2]; uint32_t a[2] = {{0}}; uint8_t n[1];"
     " return whelk_clue_build(2, k, 2, h, 2, m, 2, a, 2, e, 2, g, 2, n, 2).count == 1;", "stringop-overflow"),
]}[HEADER]

passed = failed = 0


def check(what, holds, why=""):
    """One check."""
    global passed, failed
    if holds:
        passed += 1
    else:
        failed += 1
        print(f"failed: {what}\n{why}")


def compiled(compiler, text, *options):
    """What a compiler says of a program, with its status."""
    run = subprocess.run([*compiler, *WARNINGS, *options, f"-I{ROOT}/include", "-c", "-o", "/dev/null", "-"], input=text, text=True,
                         stdout=subprocess.PIPE, stderr=subprocess.STDOUT)
    return run.returncode, run.stdout


def words(path, pattern):
    """What a pattern finds in a file."""
    return sorted(re.findall(pattern, (ROOT / path).read_text(), re.M))


header = (ROOT / "include" / HEADER).read_text()
code = re.sub(r"/\*.*?\*/", "", header, flags=re.S)
declared = sorted(re.findall(r"^(?!static)(?:struct )?\w+ (whelk_\w+)\(", code, re.M))
symbols = subprocess.run(["nm", "-g", "--defined-only", ARCHIVE], check=True, text=True, stdout=subprocess.PIPE).stdout
check("some functions are declared", len(declared) > 0)
there = [(ARCHIVE, sorted(line.split()[-1] for line in symbols.splitlines() if len(line.split()) == 3))]
for where, names in there + [(path, words(path, pattern)) for path, pattern in PLACES]:
    check(f"{where} has what the header declares", names == declared, f"{where} has {names}, the header {declared}")
for name in declared:
    check(f"{name} has a comment of its own", re.search(rf"\*/\n(?:struct )?\w+ {name}\(", header))

# gcc lets an old cast pass in C's part of a C++ program, and clang doesn't: it is asked too where it is there
for compiler in (COMPILER, ["clang", "--target=x86_64-linux-gnu", "-Wno-unknown-warning-option"]):
    for language in LANGUAGES if shutil.which(compiler[0]) else []:
        status, said = compiled(compiler, f'#include "{HEADER}"\n', *language)
        check(f"the header by {' '.join(compiler + language)}", status == 0, said)
for body, warning in BODIES:
    status, said = compiled(COMPILER, f'#include "{HEADER}"\nint main(void) {{ {body} }}\n', "-xc", "-std=c99", "-O2", "-Wno-conversion")
    check(f"{warning or 'no warning'}: {body}", re.search(rf"-Werror=[\w-]*{warning}", said) if warning else status == 0, said)

library = (ROOT / "include" / "whelkhollow.h").read_text()
version = re.search(r'#define WHELK_VERSION "(\d+)\.(\d+)\.(\d+)"\n#define WHELK_VERSION_NUMBER (\d+)\n', library)
check("the version is one", version and int(version[4]) == int(version[1]) * 10000 + int(version[2]) * 100 + int(version[3]))

print(f"{passed} passed, {failed} failed")
raise SystemExit(failed > 0 or passed == 0)
