#!/usr/bin/env python3
"""Tests of tools/records, with the second reading of document 01 (reading.py) as judge.

    tests/records_tool.py [FILES] [SEED]    FILES (300) valid files and three times as many damaged ones, shown, judged and made again;
                                            the worked example, texts that are refused, and the examples of docs/FORMAT.md

Ends with 1 at the first thing that is not as it should be.
"""

import collections
import importlib.machinery
import importlib.util
import os
import random
import re
import subprocess
import sys
import tempfile

sys.dont_write_bytecode = True

import generate
import reading

ROOT = os.path.dirname(os.path.dirname(os.path.abspath(__file__)))
TOOL = os.path.join(ROOT, "tools", "records")
PAGE = os.path.join(ROOT, "docs", "FORMAT.md")

WORKED_BYTES = (
    "04 00 01 00 03 00  07 00 02 00 01 00 00 01 00  07 00 02 00 00 01 00 02 00  17 00 03 00 02 00 00 02 00 09" + " 00" * 15
    + "  02 00 06 00  05 00 04 00 01 00 01  02 00 05 00  02 00 06 00  05 00 04 00 00 00 01"
)
WORKED_TEXT = """\
@0     atoms 3
@6     row 1: 0 1
@15    row 0: 1 2
@24    table 0 2: forbid 00 11
@49    probe
@53    decide 1 1
@60    inspect
@64    probe
@68    decide 0 1
"""


def load():
    loader = importlib.machinery.SourceFileLoader("records", TOOL)
    module = importlib.util.module_from_spec(importlib.util.spec_from_loader("records", loader))
    loader.exec_module(module)
    return module


tool = load()


def want(found, wanted, what):
    if found != wanted:
        sys.exit(f"records_tool: {what}\n  found:  {str(found)[:2000]}\n  wanted: {str(wanted)[:2000]}")


def run(*words, data=b""):
    """Exit status, standard output and standard error of the command."""
    done = subprocess.run([sys.executable, TOOL, *words], input=data, capture_output=True)
    return done.returncode, done.stdout, done.stderr.decode()


def shown(data):
    return "".join(line + "\n" for line in tool.show(data))


def judged(data):
    """Number and offset of a refusal by the second reading, or none."""
    try:
        reading.check_file(data)
    except reading.Refused as refusal:
        return refusal.args
    return None


# Files


def hold(data):
    """Whatever the bytes: the fault is the judge's, it stands just before its record, and the text makes the same bytes. Its number."""
    refusal, fault, text = judged(data), tool.first_fault(data), shown(data)
    want(fault and fault[:2], refusal, f"the first fault of {data.hex()}")
    want(tool.make(text)[0], data, f"the file made of what is shown of {data.hex()}")
    marks = re.findall(r"^# refused (\d+) at (\d+): .+\n(@\d+)?", text, re.MULTILINE)
    number, offset = refusal or (0, 0)
    place = f"@{0 if number == 8 else offset}" if data else ""
    want(marks, [(str(number), str(offset), place)] if refusal else [], f"the fault marked in {text}")
    return number


def damaged(rng):
    """A damaged file of the generator, or one with bytes changed, left out or put in; or any few bytes."""
    data = bytearray(generate.damaged_file(rng))
    how = rng.randrange(4)
    if how == 0:
        return rng.randbytes(rng.randrange(12))
    for _ in range(rng.randint(1, 3) if how == 1 and data else 0):
        at = rng.randrange(len(data))
        data[at : at + rng.randint(0, 2)] = rng.randbytes(rng.randint(0, 2))
    return bytes(data)


def files(count, seed):
    numbers = collections.Counter()
    for number in range(count):
        data = generate.assemble(generate.valid_records(random.Random(f"{seed}/valid/{number}")))
        want(hold(data), 0, f"the number of {data.hex()}")
    for number in range(3 * count):
        numbers[hold(damaged(random.Random(f"{seed}/damaged/{number}")))] += 1
    for case in generate.settled():
        if case.startswith("file"):
            numbers[hold(bytes.fromhex(case[4:]))] += 1
    lost = [number for number in range(1, 9) if not numbers[number]]
    want(lost, [] if count >= 300 else lost, "numbers that no file reached")
    found = ", ".join(f"{number}: {numbers[number]}" for number in range(1, 9))
    print(f"records: {count + numbers[0]} fit files shown, judged and made again, and refused ones by number: {found}")


def tables():
    """Every table of up to three atoms, and its ignored bits."""
    count = 0
    for k in range(4):
        for bits in range(1 << (1 << k)):
            for ignored in (0, 1, (1 << 128 - (1 << k)) - 1):
                body = bytes([k]) + b"".join(map(generate.pack, range(k))) + (bits | ignored << (1 << k)).to_bytes(16, "little")
                hold(generate.assemble([(1, generate.pack(3)), (3, body)]))
                count += 1
    print(f"records: {count} tables, all of up to three atoms")


def worked():
    """The worked example of document 01, by the command."""
    data = bytes.fromhex(WORKED_BYTES)
    want(run("make", data=WORKED_TEXT.encode()), (0, data, ""), "the worked example made")
    want(run("make", "-", data=("\ufeff# é\r\n" + WORKED_TEXT.replace("\n", " # note\r\n")).encode()), (0, data, ""), "the same, with comments")
    want(run("show", data=data), (0, WORKED_TEXT.encode(), ""), "the worked example shown")
    want(run("check", data=data), (0, b"fit\n", ""), "the worked example checked")
    print("records: the worked example")


# Texts


SAME = [  # two texts that say the same
    ("table 0 2: forbid 00 11", "table 0 2: allow 10 01"),
    ("table 0 2: forbid 00 11", "table 0 2: allow {0} {2}"),
    ("table 4 5 9: forbid 101", "table 4 5 9: forbid {9,4}"),
    ("table 4 5 9: forbid 101", "table  4 5 9 :forbid { 9, 4 } 101"),
    ("table: forbid", "table: allow {}"),
    ("table: forbid {}", "table: allow"),
    ("table 7: forbid 1 ignored 0xff", "table 7: allow 0 ignored 0x00FF"),
    ("row 1: 0 1", "@77 row 01 :0 1# odd"),
    ("row 0:", "row 0 :"),
    ("probe", "bytes 02 00\n  bytes 06\t00"),
]
REFUSED = [  # a text that cannot be read, the line and some of what is said of it
    ("atoms 3\nrows 1: 0", 2, "'rows' is no record; records are atoms, row,"),
    ("\n\natoms", 3, "written as in `atoms 3`"),
    ("atoms 3 4", 1, "written as in `atoms 3`"),
    ("atoms -1", 1, "written as in `atoms 3`"),
    ("atoms 65536", 1, "65536 is above 65535"),
    ("atoms " + "9" * 5000, 1, "is above 65535"),
    ("row 1 0 1", 1, "written as in `row 1: 0 1`"),
    ("row 256: 0", 1, "256 is above 255"),
    ("row 1: 0, 1", 1, "written as in"),
    ("row 1: 0 65536", 1, "65536 is above 65535"),
    ("row 1:" + " 0" * 32767, 1, "too long"),
    ("table 0 2: 00 11", 1, "written as in `table 0 2: forbid 00 11`"),
    ("table 0 2: forbid 0", 1, "0 has 1 digits"),
    ("table 0 2: forbid 02", 1, "written as in"),
    ("table 0 2: forbid {1}", 1, "{1} has an atom that the table does not name"),
    ("table 0 2: forbid {0", 1, "written as in"),
    ("table 0 1 2 3 4 5 6 7 8: forbid", 1, "names 9 atoms"),
    ("table 0 2: forbid ignored", 1, "written as in"),
    ("table 0 2: forbid ignored 0x1" + "0" * 31, 1, "too many for a table with k = 2"),
    ("decide 1", 1, "written as in `decide 1 1`"),
    ("decide 1 256", 1, "256 is above 255"),
    ("inspect 1", 1, "written as in `inspect`"),
    ("probe:", 1, "written as in `probe`"),
    ("bytes 2", 1, "written as in `bytes"),
    ("@6 @7 probe", 1, "'@7' is no record"),
    ("\x00\x01", 1, "is no record"),
]
UNFIT = [  # a text that says an unfit file, the line and the refusal
    ("", 1, "refused 2 at 0"),
    ("# one\natoms 3\n\nrow 1: 3", 4, "refused 4 at 6"),
    ("atoms 513", 1, "refused 4 at 0"),
    ("atoms 3\ninspect\nrow 1: 0\nprobe", 3, "refused 2 at 10"),
    ("atoms 3\ntable 2 0: forbid", 2, "refused 5 at 6"),
    ("atoms 3\nbytes 02\nbytes 00 09 00", 2, "refused 2 at 6"),
    ("atoms 0\n" + "row 0:\n" * 513, 514, "refused 7 at 2566"),
    ("atoms 0\n" + "probe\n" * 16383, 16384, "refused 8 at 65536"),
]


def texts():
    for one, other in SAME:
        want(tool.make(other)[0], tool.make(one)[0], f"the bytes of {other}")
    for text, line, said in REFUSED:
        status, out, errors = run("make", data=text.encode())
        want((status, out, errors.startswith(f"records: line {line}: "), said in errors), (1, b"", True, True), f"{text[:60]!r}: {errors}")
    for text, line, refusal in UNFIT:
        status, out, errors = run("make", data=text.encode())
        want((status, out, errors.startswith(f"records: line {line}: {refusal}: ")), (1, b"", True), f"{text[:60]!r}: {errors}")
        status, out, errors = run("make", "--unfit", data=text.encode())
        want((status, reading.answer_file(out, False)), (0, [refusal]), f"what is made of {text[:60]!r} all the same")
        status, out, errors = run("check", data=out)
        want((status, out.decode().startswith(refusal + ": ")), (1, True), f"{text[:60]!r}, made and checked: {out}")
    print(f"records: {len(SAME)} texts in two forms, {len(REFUSED)} that cannot be read, {len(UNFIT)} of unfit files")


def scrambled(count, seed):
    """Texts with characters changed: made, or refused with a line number."""
    refused = 0
    for number in range(count):
        rng = random.Random(f"{seed}/text/{number}")
        text = list(WORKED_TEXT + "table 1 4: allow {1} 01 ignored 0x5\nbytes 00 ff\n")
        for _ in range(rng.choice((1, 1, 1, 3))):
            at = rng.randrange(len(text))
            text[at : at + rng.randint(0, 3)] = rng.choices("0123456789 :{},@#x\n\r\té\0abeforw", k=rng.randint(0, 3))
        try:
            hold(tool.make("".join(text))[0])
        except tool.BadText as bad:
            want(bool(re.match(r"line \d+: ", str(bad))), True, f"the line number of {bad}")
            refused += 1
    print(f"records: {count} scrambled texts, {refused} of them refused")


def command():
    """Names of files, and what cannot be read."""
    with tempfile.TemporaryDirectory() as folder:
        text, file, none = (os.path.join(folder, name) for name in ("text", "file", "none"))
        with open(text, "w", encoding="ascii") as target:
            target.write("atoms 3\n")
        status, out, _ = run("make", text)
        want((status, out), (0, b"\4\0\1\0\3\0"), "a text by its name")
        with open(file, "wb") as target:
            target.write(out)
        want(run("show", file), (0, b"@0     atoms 3\n", ""), "a file by its name")
        for words in (("show", none), ("make", folder), ("other",), ()):
            status, out, errors = run(*words)
            want((status, out, "Traceback" in errors, "error: " in errors), (2, b"", False, True), f"{words}: {errors}")
    print("records: the command")


# The page


def blocks(page):
    """The fenced blocks of a page as (name, lines)."""
    for name, text in re.findall(r"^```(\w*)\n(.*?)^```$", page, re.MULTILINE | re.DOTALL):
        yield name, text.splitlines()


def bytes_on(lines):
    """Hexadecimal, and `513 times` before what stands so often."""
    data = b""
    for line in lines:
        times, text = re.fullmatch(r"(?:(\d+) times )?(.*)", line).groups()
        data += bytes.fromhex(text) * int(times or 1)
    return data


def agrees(found, wanted, what):
    """A line of three dots stands for lines left out."""
    if "..." in wanted:
        at = wanted.index("...")
        rest = len(wanted) - at - 1
        found = found[:at] + ["..."] + found[len(found) - rest :]
    want("\n".join(found), "\n".join(wanted), what)


def page():
    """Each example is three blocks: hex, the bytes; text, what show prints of them; lines, those of swaps. A block mended is text that is fit."""
    with open(PAGE, encoding="utf-8") as source:
        text = source.read()
    examples, numbers, data = 0, set(), b""
    for name, lines in blocks(text):
        if name == "hex":
            data, examples = bytes_on(lines), examples + 1
        elif name == "text":
            agrees(shown(data).splitlines(), lines, f"docs/FORMAT.md, what is shown of {data.hex(' ')[:200]}")
            if "..." not in lines:
                want(tool.make("\n".join(lines))[0], data, f"docs/FORMAT.md, what is made of {lines}")
        elif name == "lines":
            want(reading.answer_file(data, False), lines, f"docs/FORMAT.md, the lines of {data.hex(' ')[:200]}")
            numbers |= {int(line.split()[1]) for line in lines if line.startswith("refused")}
        elif name == "mended":
            want(tool.first_fault(tool.make("\n".join(lines))[0]), None, f"docs/FORMAT.md, {lines}")
        else:
            want(name, "", "docs/FORMAT.md, a block's name")
    want(numbers, set(range(1, 9)), "docs/FORMAT.md, numbers that have an example")
    want(bytes.fromhex(WORKED_BYTES) in [bytes_on(lines) for name, lines in blocks(text) if name == "hex"], True, "docs/FORMAT.md, the worked example")
    print(f"records: {examples} examples of docs/FORMAT.md")


def main(count="300", seed="0"):
    worked()
    texts()
    command()
    page()
    tables()
    scrambled(3 * int(count), seed)
    files(int(count), seed)


if __name__ == "__main__":
    main(*sys.argv[1:])
