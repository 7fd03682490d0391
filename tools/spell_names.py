#!/usr/bin/env python3
"""Spells the repository's own definitions, laws, fields and constructors in snake case, as today's Rattle spells its own: `halvedGave` becomes
`halved_gave` and `holds-until` `holds_until`. It was run once, after the toolchain's own script, which turned only some of them.

usage: tools/spell_names.py [--check]      at the top of the repository; --check writes nothing

What turns is what crates/*/specs and crates/*/proofs declare, but for the answers of a function's proof, whose names the toolchain makes: as whole
words in .antt and .rt files and in must-fail edits, and in docs/ and README.md between backticks. A name stays where its new spelling stands in the
tree already with another meaning (KEPT), or gets another one (OTHER).
"""
import pathlib
import re
import sys

ROOT = pathlib.Path(__file__).resolve().parent.parent
WORD = re.compile(r'[^\s(){}.;,@"«»]+')
DECLARED = re.compile(r"(?m)^ *(?:(?:pub|abbrev|unfoldable|record|data) )*([^\s(){}.;,@\"«»|:]+)(?: [{(][^\n]*?[)}])* : *(\S*)")
SPAN = re.compile(r"`[^`\n]+`")
# The library has a law of this name.
KEPT = {"and-false", "not-true", "not-false"}
# Beside a definition whose name would be the same.
OTHER = {
    "all-rows": "all_rows_lem",
    "are-runs": "are_runs_lem",
    "bytes-lookup": "bytes_lookup_lem",
    "edit-agreed": "edit_agreed_lem",
    "first-inside": "first_inside_lem",
    "half-lookup": "half_lookup_lem",
    "hop-at": "hop_at_lem",
    "hop-before": "hop_before_lem",
    "hop-count": "hop_count_lem",
    "hop-of": "hop_of_lem",
    "host-bits": "host_bits_lem",
    "import-refused": "import_refused_lem",
    "in-places": "in_places_lem",
    "is-in": "is_in_lem",
    "is-prefix": "is_prefix_lem",
    "joins-before": "joins_before_lem",
    "joins-behind": "joins_behind_lem",
    "last-hop": "last_hop_lem",
    "last-in": "last_in_lem",
    "new-hops": "new_hops_lem",
    "new-starts": "new_starts_lem",
    "no-hop": "no_hop_lem",
    "numbers-named": "numbers_named_lem",
    "packed-lookup": "packed_lookup_lem",
    "pair-check": "pair_check_lem",
    "plain-lookup": "plain_lookup_lem",
    "quick-final": "quick_final_lem",
    "quick-place": "quick_place_lem",
    "row-length": "row_length_lem",
    "row-replaced": "row_replaced_lem",
    "row-taken": "row_taken_lem",
    "row-text": "row_text_lem",
    "run-lookup": "run_lookup_lem",
    "run-lookup-for-c": "run_lookup_for_c_lem",
    "start-at": "start_at_lem",
}


def snake(name):
    if name[:1].isupper() and "-" not in name:
        return name
    parts = [re.sub(r"(?<=[a-z0-9])[A-Z]", lambda m: "_" + m[0].lower(), part) if part[:1].islower() else part for part in name.split("-")]
    return "_".join(parts)


def files(*kinds):
    return sorted(f for kind in kinds for f in (ROOT / "crates").rglob(f"*{kind}") if "out" not in f.relative_to(ROOT).parts)


def declared():
    names = set()
    for f in files(".antt"):
        for name, of in DECLARED.findall(re.sub(r"--[^\n]*", "", f.read_text())):
            if not of.startswith(("tie.", "goal.")):
                names.add(name)
    return names


def table():
    rows = {}
    for name in declared():
        new = OTHER.get(name, snake(name))
        if new != name and name not in KEPT and re.search(r"[A-Za-z]", name) and re.fullmatch(r"[\w'-]+", name):
            rows[name] = new
    return rows


def turned(text, rows):
    return WORD.sub(lambda m: rows.get(m[0], m[0]), text)


def turned_comment(text, rows):
    """In a comment, names between backticks turn, and names in camel case."""
    camel = {a: b for a, b in rows.items() if "-" not in a}
    return re.sub(r"(?<![\w-])[A-Za-z][\w'-]*", lambda m: camel.get(m[0], m[0]), SPAN.sub(lambda m: span(m, rows), text))


def span(m, rows):
    return re.sub(r"[A-Za-z][\w'-]*", lambda w: rows.get(w[0], w[0]), m[0])


def code(text, rows, comment):
    out = []
    for line in text.split("\n"):
        at = line.find(comment)
        at = len(line) if at < 0 else at
        out.append(turned(line[:at], rows) + turned_comment(line[at:], rows))
    return "\n".join(out)


def main():
    rows = table()
    news = {}
    for old, new in rows.items():
        news.setdefault(new, []).append(old)
    words = {}
    for f in files(".antt", ".rt"):
        for w in set(re.findall(r"[A-Za-z][\w'-]*", f.read_text())):
            words.setdefault(w, []).append(f)
    for new, olds in sorted(news.items()):
        if len(olds) > 1:
            print(f"together: {' '.join(sorted(olds))} -> {new}")
        if new in words:
            print(f"there: {olds[0]} -> {new}: {' '.join(str(f.relative_to(ROOT / 'crates')) for f in words[new][:4])}")
    library = re.compile(r"\buse (?:Rattle\.std|mathlib|Prim|lib|native|borrow|core)[\w.]*\.?\{([^}]*)\}")
    for f in files(".antt", ".rt"):
        for m in library.finditer(f.read_text()):
            for w in re.findall(WORD, m[1]):
                if w in rows:
                    print(f"library: {w}: {f.relative_to(ROOT)}")
    if "--check" in sys.argv:
        print(f"{len(rows)} names")
        return
    fresh = set(rows.values()) | declared() - set(rows)
    changed = 0
    for f in files(".antt", ".rt", ".edit"):
        old = f.read_text()
        if f.suffix == ".edit":
            new = "\n".join(turned_comment(line, rows) if line.startswith("#") else turned(line, every(line, rows, fresh)) for line in old.split("\n"))
        else:
            new = code(old, rows, "--" if f.suffix == ".antt" else "//")
        if new != old:
            f.write_text(new)
            changed += 1
    for f in [ROOT / "README.md", *sorted((ROOT / "docs").rglob("*.md"))]:
        old = f.read_text()
        new = SPAN.sub(lambda m: re.sub(r"[A-Za-z][\w'-]*", lambda w: every(w[0], rows, fresh).get(w[0], w[0]), m[0]), old)
        if new != old:
            f.write_text(new)
            changed += 1
    print(f"{len(rows)} names, {changed} files")


def every(text, rows, fresh):
    """The rows, and those of the words of a text that the toolchain's script turned."""
    more = {w: snake(w) for w in re.findall(r"[A-Za-z][\w'-]*", text) if w not in rows and snake(w) != w and snake(w) in fresh}
    return {**more, **rows}


if __name__ == "__main__":
    main()
