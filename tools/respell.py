#!/usr/bin/env python3
"""Brings the repository's own definitions and lemmas to today's spelling: words in snake case.

usage: tools/respell.py    at the top, once, after the kit's port.py

Every name that a file of crates/*/specs or crates/*/proofs declares, also in a record or a section, and that has an inner capital after
a small first letter (`setOf`) or a dash (`row-past`), is written in snake case (`set_of`, `row_past`): in .rt and .antt files, in
must-fail edits, and between backticks in comments and pages. Names of Rattle's source, types and names that a file imports from the kit
keep their spelling. Where two names would fall together, BY_HAND and LOCAL say what becomes of the lemma: it gets `_lem`.
"""
import glob
import os
import re

os.chdir(os.path.join(os.path.dirname(os.path.abspath(__file__)), ".."))
SIGNATURE = re.compile(r"^(\s*)((?:(?:abbrev|unfoldable|pub|record|data|ruleset)\s+)*)([^\s(){};:,.=\[\]@]+)\s*[:({]")
TOKEN = re.compile(r"(\.?)([^\s(){};:,.=\[\]@\"`⌜⌝⟦⟧]+)")
USE = re.compile(r"^\s*(?:pub )?(?:ghost )?use ([^\s{;]+?)(?:\.\{([^}]*)\})?(?: as .*)?;?\s*$")
BY_HAND = {
    "unitAtoms": "unit_atoms_of", "unitValues": "unit_values_of", "probe-line": "probe_line_lem", "atoms-noted": "atoms_noted_lem",
    "values-noted": "values_noted_lem", "names-within": "names_within_lem", "bit-xor": "bit_xor_lem", "is-held": "is_held_lem",
}
# what port.py had brought to a name that a definition now takes
LOCAL = {
    "crates/echelon/": {"same_low": "same_low_lem"},
    "crates/inspect/proofs/Applying.antt": {"is_cut": "is_cut_lem", "is_open": "is_open_lem"},
    "crates/parity/proofs/Telling.antt": {"row_at": "row_here"},
}


def read(path):
    with open(path, encoding="utf-8") as f:
        return f.read()


def snake(name):
    return re.sub(r"(?<=[a-z0-9])([A-Z])", lambda m: "_" + m.group(1).lower(), name).replace("-", "_")


def wanted(name):
    return name[:1].islower() and re.fullmatch(r"[A-Za-z0-9_'-]+", name) and (re.search(r"[a-z0-9][A-Z]", name) or "-" in name)


crates = [os.path.basename(c.rstrip("/")) for c in glob.glob("crates/*/")]
declaring = sorted(glob.glob("crates/*/specs/*.antt") + glob.glob("crates/*/proofs/*.antt"))
files = sorted(glob.glob("crates/*/src/**/*.rt", recursive=True) + glob.glob("crates/*/specs/**/*.antt", recursive=True)
               + glob.glob("crates/*/proofs/**/*.antt", recursive=True) + glob.glob("crates/*/must-fail/*.edit")
               + glob.glob("*.md") + glob.glob("docs/*.md"))
names, fields = {}, set()
for path in declaring:
    for line in read(path).splitlines():
        m = SIGNATURE.match(line)
        if m and ":" in line and wanted(m.group(3)):
            names.setdefault(m.group(3), BY_HAND.get(m.group(3), snake(m.group(3))))
            if m.group(1):
                fields.add(m.group(3))


def imported(text):
    """The names that a file imports from the kit."""
    out = set()
    for line in text.splitlines():
        m = USE.match(line)
        if m and m.group(2) and not (m.group(1).startswith("Rattle.") and m.group(1).split(".")[1] in crates):
            out.update(re.split(r" as |,", m.group(2).replace(" ", "")))
    return out


def respell(path, text):
    theirs = imported(text)
    walk = path.endswith("/Proof.antt")
    local = {o: n for where, so in LOCAL.items() if path.startswith(where) for o, n in so.items()}
    tokens = {m.group(2) for m in TOKEN.finditer(text)}
    mine = {n: names[n] for n in tokens if n in names and n not in theirs} | {o: n for o, n in local.items() if o in tokens}
    for old, new in mine.items():
        if not path.endswith((".rt", ".md", ".edit")) and not walk:
            if (new in tokens and new not in local) or [o for o in mine if o != old and mine[o] == new]:
                print(f"{path}: {old} falls together with {new}")

    def one(m):
        if m.group(1) and walk and m.group(2) not in fields:
            return m.group(0)
        return m.group(1) + mine.get(m.group(2), m.group(2))

    def code(part):
        return TOKEN.sub(one, part)

    def prose(part):
        return re.sub(r"`[^`]*`", lambda m: code(m.group(0)), part)

    out = []
    for line in text.splitlines(keepends=True):
        if path.endswith(".md") or (path.endswith(".edit") and line.startswith("#")):
            out.append(prose(line))
            continue
        m = re.search(r"(?<!\S)--(?!\S)" if path.endswith(".antt") else r"//" if path.endswith(".rt") else r"(?!)", line)
        at = m.start() if m else len(line)
        out.append(code(line[:at]) + prose(line[at:]))
    return "".join(out)


changed = 0
for path in files:
    text = read(path)
    new = respell(path, text)
    if new != text:
        changed += 1
        with open(path, "w", encoding="utf-8") as f:
            f.write(new)
print(f"{len(names)} names, {changed} files")
