"""Compares files_check with Java's own classes on 100,000 random and mutated inputs.

usage: python3 checks/names.py PROGRAM [COUNT [SEED]], with the built files_check as PROGRAM.
Where the two differ, the stricter rule of ours that the input breaks must be one of those named
here; a difference without one is printed, and the exit status is 1.
"""
import collections, pathlib, re, subprocess, sys, tempfile
from asking import ask_each, end, given

WORDS = """abstract continue for new switch assert default if package synchronized boolean do goto
private this break double implements protected throw byte else import public throws case enum
instanceof return transient catch extends int short try char final interface static void class
finally long strictfp volatile const float native super while true false null""".split()


def spell(unit):
    if 1 <= unit <= 0x7F:
        return bytes([unit])
    if unit <= 0x7FF:
        return bytes([0xC0 | unit >> 6, 0x80 | unit & 63])
    return bytes([0xE0 | unit >> 12, 0x80 | unit >> 6 & 63, 0x80 | unit & 63])


def mutate(rng, items, alphabet):
    items = list(items)
    for _ in range(rng.choice([0, 1, 1, 2, 3])):
        at = rng.randrange(len(items) + 1)
        what = rng.randrange(3)
        if what == 0:
            items.insert(at, rng.choice(alphabet))
        elif items:
            at = min(at, len(items) - 1)
            if what == 1:
                items[at] = rng.choice(alphabet)
            else:
                del items[at]
    return items


def some_bytes(rng):
    units = [rng.choice([0, rng.randrange(0x80), rng.randrange(0x800), rng.randrange(0x10000)]) for _ in range(rng.randrange(8))]
    return bytes(mutate(rng, b"".join(map(spell, units)), [0, 0x41, 0x7F, 0x80, 0xBF, 0xC0, 0xC1, 0xC2, 0xDF, 0xE0, 0xED, 0xEF, 0xF0, 0xFF]))


def some_type(rng, depth=0):
    kind = rng.randrange(12)
    if kind < 8:
        return "BCDFIJSZ"[kind]
    if kind < 10:
        return "L" + "/".join("".join(rng.choice("abX$_1") for _ in range(rng.randrange(1, 4))) for _ in range(rng.randrange(1, 4))) + ";"
    return "[" * rng.choice([1, 1, 2, 3]) + some_type(rng, depth + 1)


def some_descriptor(rng):
    kind = rng.randrange(20)
    if kind == 0:
        return "(" + "I" * rng.choice([0, 1, 253, 254, 255, 256]) + "J" * rng.choice([0, 1, 2]) + ")V"
    if kind == 1:
        return "[" * rng.choice([254, 255, 256, 257]) + "I"
    if kind < 6:
        text = some_type(rng)
    else:
        text = "(" + "".join(some_type(rng) for _ in range(rng.randrange(5))) + ")" + rng.choice(["V", some_type(rng)])
    return "".join(mutate(rng, text, "()[;LV/.IJX$"))


def some_identifier(rng):
    base = rng.choice([rng.choice(WORDS), "".join(rng.choice("abzAZ_$019") for _ in range(rng.randrange(6)))])
    return "".join(mutate(rng, base, "azAZ09_$ -.[@`{"))


def stricter_bytes(data):
    """Why our rule refuses what readUTF takes."""
    if 0 in data:
        return "a byte 00 is no unit (JVMS 4.4.7)"
    at = 0
    while at < len(data):
        first = data[at]
        size = 1 if first < 0x80 else 2 if first < 0xE0 else 3
        if size == 2:
            unit = (first & 31) << 6 | data[at + 1] & 63
        elif size == 3:
            unit = (first & 15) << 12 | (data[at + 1] & 63) << 6 | data[at + 2] & 63
        else:
            unit = first
        if spell(unit) != data[at:at + size]:
            return "a form longer than needed"
        at += size
    return None


TYPE = r"\[{0,255}(?:[BCDFIJSZ]|L[^.;\[/]+(?:/[^.;\[/]+)*;)"


def words(text):
    return sum(2 if kind in "JD" else 1 for kind in re.findall(r"\[*(?:[BCDFIJSZ]|L[^;]*;)", text))


def stricter_descriptor(text):
    """Why our rule differs from fromMethodDescriptorString, which also makes the types."""
    if re.search(r"L[^;]*(?://|/;|[.\[])", text) or re.search(r"L/|L;", text):
        return "an empty segment, or a dot or bracket in a name (JVMS 4.2.1, 4.2.2)"
    return None


def lenient_descriptor(text):
    """Why our rule takes what fromMethodDescriptorString refuses."""
    if text.startswith("(") and words(text[:text.rindex(")")]) == 255:
        return "a method handle has at most 254 words"
    return None


def main():
    program, count, rng = given(sys.argv[1:], 100_000)
    questions = []
    for _ in range(count):
        kind = rng.choice("uddi")
        if kind == "u":
            questions.append((kind, some_bytes(rng)))
        else:
            questions.append((kind, (some_descriptor if kind == "d" else some_identifier)(rng)))
    lines = [f"{kind} {(item if kind == 'u' else item.encode('utf-16-be')).hex()}" for kind, item in questions]
    ours = ask_each([program], lines, "name")
    with tempfile.TemporaryDirectory() as folder:
        source = pathlib.Path(__file__).with_name("Names.java")
        subprocess.run(["javac", "-d", folder, str(source)], check=True)
        java = ask_each(["java", "-Xss64m", "-cp", folder, "Names"], lines)
    tally, reasons, unexplained = collections.Counter(), collections.Counter(), []
    for (kind, item), mine, theirs in zip(questions, ours, java):
        if kind == "i":
            same, reason = mine == theirs, None
        elif kind == "u":
            shown = "".join(chr(u) if 33 <= u <= 126 and u != 92 else f"\\u{u:04x}" for u in (int(h, 16) for h in theirs.split()[1:]))
            same = (mine == f"true {shown}") if theirs.startswith("ok") else mine.startswith("bad")
            reason = stricter_bytes(item) if mine.startswith("bad") and theirs.startswith("ok") else None
        else:
            same = mine.split()[0] == theirs
            reason = stricter_descriptor(item) if mine.startswith("bad") else lenient_descriptor(item)
        tally[kind, mine.split()[0] if kind != "u" or mine.startswith("bad") else "ok"] += 1
        if not same:
            if reason:
                reasons[kind, reason] += 1
            else:
                unexplained.append((kind, item, mine, theirs))
    print(count, "inputs:", ", ".join(f"{kind} {answer} {n}" for (kind, answer), n in sorted(tally.items())))
    for (kind, reason), n in sorted(reasons.items()):
        print(f"differ {n}: {kind}, {reason}")
    return end("differ without a named rule", unexplained)


sys.exit(main())
