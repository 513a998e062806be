#!/usr/bin/env python3
"""Deliberately wrong readings: each is one edit of reading.py, and the recorded answers must catch it.

    wrong.py FILE ...
"""

import sys
import types

import reading

EDITS = {
    "pivots on the highest atom": (
        "        while mask and lowest(mask) in owner:\n            other, flip = rows[owner[lowest(mask)]]",
        "        while mask and mask.bit_length() in owner:\n            other, flip = rows[owner[mask.bit_length()]]",
        "            owner[lowest(mask)] = number",
        "            owner[mask.bit_length()] = number",
    ),
    "publishing before the touched rows are read": (
        "    forced = []\n    for j in touched(system.rank, columns, region, known):",
        "    forced, known = [], region\n    for j in touched(system.rank, columns, region, known):",
    ),
    "publishing the region as it leaves": (
        '    return ("changed" if any(counts)',
        '    known = region\n    return ("changed" if any(counts)',
    ),
    "publishing on a wrong parity": (
        "return (\"refuted\", 0, 0), region, forced, known",
        "return (\"refuted\", 0, 0), region, forced, region",
    ),
    "publishing with an empty basis": (
        'return ("unchanged", 0, 0), region, [], known',
        'return ("unchanged", 0, 0), region, [], region',
    ),
    "never publishing": ("    known, counts = region, [0, 0]", "    counts = [0, 0]"),
    "all rows touched": ("    if known is None:\n        return list", "    if True:\n        return list"),
    "trusting the probe after a refuted preparation": (
        '    if system.refuted:\n        return "no", u, 0\n', "",
    ),
    "k counts the basis": ('return "yes", u, len(kept)', 'return "yes", u, system.rank'),
    "k is 0 on no": ('return "no", u, len(kept)', 'return "no", u, 0'),
    "ending the count of allowed patterns at full rank": (
        "len(allowed) == 1 << len(pivots)", "len(pivots) == k or len(allowed) == 1 << len(pivots)",
    ),
    "pivots from the highest bit": (
        "            position = lowest(difference)", "            position = difference.bit_length() - 1",
    ),
    "units without their values": (
        "units = [(lowest(rows[b][0]), rows[b][1])", "units = [(lowest(rows[b][0]), 0)",
    ),
    "5 before 4": (
        "    refuse(4, any(atom >= n for atom in atoms))\n    refuse(5, atoms != sorted(set(atoms)))\n",
        "    refuse(5, atoms != sorted(set(atoms)))\n    refuse(4, any(atom >= n for atom in atoms))\n",
    ),
    "3 before 4 for k": (
        "    refuse(4, k > 8)\n    refuse(3, len(body) != 1 + 2 * k + 8 * 2 * ceil(2**k, 128))\n",
        "    refuse(3, len(body) != 1 + 2 * k + 8 * 2 * ceil(2**k, 128))\n    refuse(4, k > 8)\n",
    ),
    "15 before 9": (
        '    refuse(13, None not in (lent.m', '    refuse(15, len(set(counts)) > 1)\n    refuse(13, None not in (lent.m',
    ),
    "16 without values": (
        "known.held & ~region.held or known.cut & ~region.cut", "(known.held | known.cut) & ~(region.held | region.cut)",
    ),
    "513 rows taken": (
        "len(found[\"rows\"]) + len(rows) > 512", "len(found[\"rows\"]) + len(rows) > 513",
    ),
}


def readings():
    """Each mistake and the second reading that makes it."""
    with open(reading.__file__, encoding="utf-8") as file:
        source = file.read()
    for name, edits in EDITS.items():
        text = source
        for old, new in zip(edits[::2], edits[1::2]):
            assert text.count(old) == 1, f"an edit that does not fit: {old}"
            text = text.replace(old, new)
        module = types.ModuleType("wrong_reading")
        exec(compile(text, "wrong_reading", "exec"), module.__dict__)
        yield name, module


def caught(paths):
    """Whether each wrong reading differs from some recorded answer."""
    blocks = []
    for path in paths:
        with open(path, encoding="ascii") as recorded:
            blocks += reading.blocks(recorded.read())
    missed = [
        name
        for name, module in readings()
        if all(module.answer_case(case) == lines for case, lines in blocks)
    ]
    print(f"{len(EDITS) - len(missed)} of {len(EDITS)} wrong readings are caught", *missed, sep="; missed: ")
    return not missed


if __name__ == "__main__":
    sys.exit(0 if caught(sys.argv[1:]) else 1)
