#!/usr/bin/env python3
"""Writes the text of calls for the test program, and holds the model to the answer noted beside each.

  sheets.py SAMPLES-FOLDER       writes stdin (the calls) and stdout (what the model of the papers answers)
"""
import pathlib, random, sys
from fractions import Fraction
import model

ROWS, SHEETS, LOADINGS, LIMITS, LISTS = [], 0, 0, 0, 0


def group(text):
    ROWS.append("# " + text)


def hexed(data, between):
    """Bytes in hex; four or more of one as a repeat, which stands between blanks."""
    items, i = [], 0
    while i < len(data):
        n = len(data) - i - len(data[i:].lstrip(data[i:i + 1]))
        items += [" %02x*%d " % (data[i], n)] if n > 3 else ["%02x" % data[i]] * n
        i += n
    return " ".join(between.join(items).split())


def spelled(sheet):
    """A sheet as text: a word for each command, as far as commands stand there; four or more of one command as a repeat. A text
    stays as it is."""
    if isinstance(sheet, str):
        return sheet
    words, at = [], 0
    while at < len(sheet) and len(model.OPERANDS.get(sheet[at], [])) > 0:
        width, times = 1 + sum(w for _, w in model.OPERANDS[sheet[at]]), 1
        word = sheet[at:at + width]
        while sheet[at + times * width:at + (times + 1) * width] == word:
            times += 1
        if times > 3:
            words.append("(%s)*%d" % (hexed(word, ""), times))
        else:
            words += [hexed(word, "")] * times
        at += times * width
    return " ".join(words + [hexed(sheet[at:], " ")]).strip() or "-"


def bytes_of(sheet):
    return model.bytes_of(sheet) if isinstance(sheet, str) else sheet


def add(sheet, answer, tidied=None):
    """`answer` is (number, place) of a refusal, (N, described, silenced), or None where none is noted; `tidied` the tidy form, where
    it is."""
    global SHEETS
    SHEETS += 1
    try:
        got = model.check(bytes_of(sheet))
    except model.Refused as r:
        got = r.args
    assert answer is None or got == answer, (spelled(sheet)[:200], got, answer)
    assert tidied is None or model.tidy(bytes_of(sheet), model.ROOM) == tidied, spelled(sheet)
    assert model.bytes_of(spelled(sheet)) == bytes_of(sheet)[:model.ROOM], spelled(sheet)
    ROWS.append(spelled(sheet))


def loading(word, argument, text, sheet, answer, powers):
    """`answer` is (number, place) of a refusal, the bits of a table, (bits, moves) of a re-fit, (bits, total bits of the plain loading) of
    a guarded loading, or None where none is noted; `powers` those of the tones, where they are noted."""
    global LOADINGS
    LOADINGS += 1
    try:
        answers, table = model.call(word, argument, bytes_of(sheet), model.ROOM)
        sent = [model.number(table[i + 1:i + 9]) for i in range(0, len(table), 9)]
        assert powers is None or (sent, answers[1]) == (powers, sum(powers)), (word, argument, spelled(sheet)[:200], sent, powers)
        got = list(table[::9])
        got = (got, answers[2]) if len(answers) == 3 else got
    except model.Refused as r:
        got = r.args
    assert answer is None or got == answer, (word, argument, spelled(sheet)[:200], got, answer)
    row = word + " " + text + "/ " + spelled(sheet)
    assert model.call_of(row) == (word, argument, bytes_of(sheet)[:model.ROOM]), row
    ROWS.append(row)
    return got


def limited(sheet, answer=None):
    """`answer` is (number, place) of a refusal, the limit of each tone and what set it, or None where none is noted."""
    global LIMITS
    LIMITS += 1
    try:
        out = model.limits(bytes_of(sheet), model.ROOM)
        got = " ".join("%d:%s" % (bits, model.WORDS[by]) for bits, by in zip(out[::2], out[1::2]))
    except model.Refused as r:
        got = r.args
    assert answer is None or got == answer, (spelled(sheet)[:200], got, answer)
    ROWS.append("limits / " + spelled(sheet))


def budgets(entries, sheet, answer=None):
    """`entries` are budgets, or the list as bytes or text; `answer` is (number, place) of a refusal, the bits and power of each
    budget, or None where none is noted."""
    global LISTS
    LISTS += 1
    if isinstance(entries, list):
        entries = b"".join(entry.to_bytes(8, "big") for entry in entries)
    text = entries if isinstance(entries, str) else hexed(entries, "") or "-"
    listed = model.bytes_of(text)
    assert listed == bytes_of(entries)[:model.ROOM], text
    try:
        got = model.pairs_of(model.budgets(bytes_of(sheet), listed, model.ROOM))
    except model.Refused as r:
        got = r.args
    assert answer is None or got == answer, (text, spelled(sheet)[:200], got, answer)
    row = "budgets " + text + " / " + spelled(sheet)
    assert model.call_of(row) == ("budgets", listed, bytes_of(sheet)[:model.ROOM]), row
    ROWS.append(row)
    return got


def most(sheet, answer=None, powers=None):
    return loading("most", None, "", sheet, answer, powers)


def guarded(sheet, answer=None, powers=None):
    return loading("guarded", None, "", sheet, answer, powers)


def target(bits, sheet, answer=None, powers=None):
    return loading("target", bits, "%d " % bits, sheet, answer, powers)


def refit(start, sheet, answer=None, powers=None, word="refit"):
    text = start if isinstance(start, str) else hexed(bytes(start), " ") or "-"
    return loading(word, model.bytes_of(text), text + " ", sheet, answer, powers)


def step(start, sheet, answer=None, powers=None):
    return refit(start, sheet, answer, powers, "step")


def size(n=3):
    return b"\x01" + n.to_bytes(2, "big")


def gap(g=256):
    return b"\x02" + g.to_bytes(2, "big")


def tenths(d):
    return bytes([8, d])


def budget(b=39):
    return b"\x03" + b.to_bytes(8, "big")


def head(n=3, b=39):
    return size(n) + gap() + budget(b)


# A command of a tone is the short one up to tone 255 and the twin from 256 on. `twin` has that of a lower tone.
twin, twinned = model.twin, model.twinned


def tone(command, number, noise=3, gain=1, cap=5, mask=100):
    return (model.named(command, number) + noise.to_bytes(2, "big") + gain.to_bytes(2, "big") + bytes([cap])
            + mask.to_bytes(8, "big"))


def pair(number, *rest, **named):
    return tone(4, number, *rest, **named)


def single(number, *rest, **named):
    return tone(5, number, *rest, **named)


def reading(number, *floats, cap=5, mask=100):
    """09 of two floats, noise and gain, or 0A of one, their ratio; each by its bits."""
    return (model.named(0x09 if len(floats) == 2 else 0x0a, number) + b"".join(bits.to_bytes(4, "big") for bits in floats) + bytes([cap])
            + mask.to_bytes(8, "big"))


def at_rest(number, power):
    """0B: what a tone sends at no bits."""
    return model.named(0x0b, number) + power.to_bytes(4, "big")


def high(number, noise):
    """0C: the high noise of a tone."""
    return model.named(0x0c, number) + noise.to_bytes(2, "big")


def float_of(value):
    """The bits of a float of just this value."""
    bits = model.nearest(Fraction(value))
    assert model.exact(bits) == value
    return bits


def example(name):
    """The bytes of a sheet of examples/."""
    path = pathlib.Path(__file__).resolve().parents[2] / "examples" / (name + ".hex")
    return bytes.fromhex("".join(row.partition("#")[0] for row in path.read_text().split("\n")))


def silence(word, bits):
    return bytes([6, word]) + bits.to_bytes(4, "big")


END, TOP = b"\x07", 2**47
NOTHING = silence(0, 0)
FULL = 2**32 - 1

group("document 01: the sample line at budget 39")
add(model.SAMPLE, (3, 3, 0))
group("document 01: the empty sheet")
add(b"", (2, 0))

# As many silences as are left of 32,768 bytes beside a pair tone of 16.
longest = head() + twin(pair(1)) + NOTHING * 5456 + END
assert len(longest) == model.LONGEST
TOO_LONG = NOTHING * 5462

group("length: 32,768 bytes are read; 32,769 are not, whatever they hold")
add(longest, (3, 1, 0))
add(longest + END, (1, 0))
add(longest[:-1] + b"\x06", (2, 32768))
add(b"\xff" * 32768, (3, 0))
add(b"\xff" * 32769, (1, 0))
add(b"\x01" * 99999, (1, 0))
group("length: 4,096 bytes and more")
add(head() + NOTHING * 680 + END, (3, 0, 0))
add(head() + NOTHING * 680 + END + END, (7, 4096))
add(head() + NOTHING * 680 + b"\x06", (2, 4096))
add(head() + NOTHING * 681 + END, (3, 0, 0))
add(b"\xff" * 4096, (3, 0))

group("cut: a sheet with each command, cut at every length from 1")
whole = head() + pair(0, 3, 1, 15, 100) + single(2, 1, 1, 7, 0x123456789abc % TOP) + silence(0, 2) + END
for n in range(1, len(whole)):
    add(whole[:n], (2, n))
add(whole, (3, 2, 1))

group("size: 0, 1, 256, 257, 1,024, 1,025, 65535")
for n, answer in [(0, (4, 1)), (1, (1, 0, 0)), (256, (256, 0, 0)), (257, (257, 0, 0)), (1024, (1024, 0, 0)), (1025, (4, 1)),
                  (65535, (4, 1))]:
    add(head(n) + END, answer)
group("gap: 0, 255, 256, 257, 65535")
for g, answer in [(0, (4, 4)), (255, (4, 4)), (256, (3, 0, 0)), (257, (3, 0, 0)), (65535, (3, 0, 0))]:
    add(size() + gap(g) + budget() + END, answer)
group("budget: 0, 2^47 - 1, 2^47, 2^47 + 1, 2^48, 2^64 - 1")
for b, answer in [(0, (3, 0, 0)), (TOP - 1, (3, 0, 0)), (TOP, (3, 0, 0)), (TOP + 1, (4, 7)), (2 * TOP, (4, 7)), (2**64 - 1, (4, 7))]:
    add(size() + gap() + budget(b) + END, answer)
for command, name, largest in [(4, "pair", 15), (5, "single", 7)]:
    group(name + ", noise: 0, 1, 65535; gain: the same")
    for at, field in [(17, "noise"), (19, "gain")]:
        add(head() + tone(command, 1, **{field: 0}) + END, (4, at))
        add(head() + tone(command, 1, **{field: 1}) + END, (3, 1, 0))
        add(head() + tone(command, 1, **{field: 65535}) + END, (3, 1, 0))
    group(name + ", cap: 0, %d, %d, 255; mask: 0, 2^47, 2^47 + 1, 2^64 - 1" % (largest, largest + 1))
    for cap, answer in [(0, (3, 1, 0)), (largest, (3, 1, 0)), (largest + 1, (4, 21)), (255, (4, 21))]:
        add(head() + tone(command, 1, cap=cap) + END, answer)
    for mask, answer in [(0, (3, 1, 0)), (TOP, (3, 1, 0)), (TOP + 1, (4, 22)), (2**64 - 1, (4, 22))]:
        add(head() + tone(command, 1, mask=mask) + END, answer)
group("word: 7, 8, 31, 32, 255")
add(head(256) + silence(7, 1 << 31) + END, (256, 0, 1))
add(head(256) + silence(8, 0) + END, (256, 0, 0))
add(head(1024) + silence(31, 1 << 31) + END, (1024, 0, 1))
add(head(1024) + silence(32, 0) + END, (4, 16))
add(head(256) + silence(255, 0) + END, (4, 16))

group("tone N - 1 and N")
for command in (4, 5):
    add(head(1) + tone(command, 0) + END, (1, 1, 0))
    add(head(1) + tone(command, 1) + END, (5, 16))
    add(head(3) + tone(command, 2) + END, (3, 1, 0))
    add(head(3) + tone(command, 3) + END, (5, 16))
    add(head(255) + tone(command, 254) + END, (255, 1, 0))
    add(head(255) + tone(command, 255) + END, (5, 16))
    add(head(256) + tone(command, 255) + END, (256, 1, 0))
group("a map that names tone N - 1 and N")
for n, word, bit in [(1, 0, 0), (3, 0, 2), (31, 0, 30), (33, 1, 0), (255, 7, 30)]:
    add(head(n) + silence(word, 1 << bit) + END, (n, 0, 1))
    add(head(n) + silence(word, 1 << bit + 1) + END, (5, 17))
    add(head(n) + silence(word, 3 << bit) + END, (5, 17))
add(head(32) + silence(0, 1 << 31) + END, (32, 0, 1))
add(head(32) + silence(1, 1) + END, (5, 17))
add(head(224) + silence(6, FULL) + END, (224, 0, 32))
group("a word past N: read with an empty map and dropped by the tidy form, else refused")
add(head(3) + silence(1, 0) + END, (3, 0, 0))
add(head(3) + silence(7, 0) + END, (3, 0, 0))
add(head(3) + silence(7, 1) + END, (5, 17))
add(head(3) + silence(1, 1 << 31) + END, (5, 17))
add(head(224) + silence(7, 0) + END, (224, 0, 0))
add(head(224) + silence(7, 1) + END, (5, 17))

group("a tone described twice, by either command")
for first in (4, 5):
    for second in (4, 5):
        add(head() + tone(first, 1) + tone(second, 1) + END, (6, 31))
add(head() + pair(1) + single(0) + silence(0, 2) + pair(2) + single(1) + END, (6, 67))
add(head(256) + pair(255) + single(254) + single(255) + END, (6, 46))
add(head() + pair(1) + pair(1) + pair(1) + END, (6, 31))

group("the first command is not 01")
for byte in (0, 2, 3, 4, 5, 6, 7, 8, 255):
    add(bytes([byte]) + head() + END, (3, 0))
group("the second is neither 02 nor 08")
for byte in (0, 1, 3, 4, 5, 6, 7, 9, 255):
    add(size() + bytes([byte]) + gap() + budget() + END, (3, 3))
group("the third is not 03")
for byte in (0, 1, 2, 4, 5, 6, 7, 255):
    add(size() + gap() + bytes([byte]) + budget() + END, (3, 6))
group("a later one is none of 04 to 07 and 09 to 0c")
for byte in (0, 1, 2, 3, 8, 0x0d, 0x40, 255):
    add(head() + bytes([byte]) + END, (3, 15))
add(head() + size() + END, (3, 15))
add(head() + pair(1) + budget() + END, (3, 30))
add(head() + single(1) + b"\x00" + END, (3, 30))
add(head() + silence(0, 1) + b"\x08" + END, (3, 21))
group("01, 02, 03 out of order")
add(gap() + size() + budget() + END, (3, 0))
add(size() + budget() + gap() + END, (3, 3))
add(size() + size() + gap() + budget() + END, (3, 3))
add(size() + gap() + END, (3, 6))

group("bytes after the end")
add(head() + END + END, (7, 16))
add(head() + END + b"\x00", (7, 16))
add(head() + END + pair(1) + END, (7, 16))
add(model.SAMPLE + b"\xff\xff\xff", (7, 61))
add(head() + NOTHING * 2 + END + NOTHING, (7, 28))

group("two faults: a missing operand (2) before any operand is judged")
add(size(0)[:2], (2, 2))
add(size(65535)[:2], (2, 2))
add(size() + gap(0)[:2], (2, 5))
add(size() + gap() + budget(2**64 - 1)[:8], (2, 14))
add(head() + pair(3)[:2], (2, 17))
add(head() + pair(3, 0, 0, 255, 2**64 - 1)[:14], (2, 29))
add(head() + single(1) + single(1, 0)[:14], (2, 44))
add(head() + silence(32, FULL)[:2], (2, 17))
add(head() + silence(32, FULL)[:5], (2, 20))
group("two faults: a command byte (3) before its missing operands (2)")
add(b"\x02", (3, 0))
add(b"\x07", (3, 0))
add(size() + budget()[:1], (3, 3))
add(size() + gap() + b"\x02\x01", (3, 6))
add(head() + b"\x03", (3, 15))
group("two faults: 5, then 6, at the tone, before the operands after it")
add(head() + pair(3, 0, 0, 16, TOP + 1) + END, (5, 16))
add(head() + single(255, 0, 0, 8, TOP + 1) + END, (5, 16))
add(head() + pair(1) + pair(1, 0, 0, 16, TOP + 1) + END, (6, 31))
add(head() + pair(1) + single(1, 3, 1, 8) + END, (6, 31))
add(head() + pair(1) + pair(1) + pair(3) + END, (6, 31))
add(head() + pair(3) + pair(3) + END, (5, 16))
group("two faults: operands from left to right")
add(head() + pair(1, 0, 0) + END, (4, 17))
add(head() + pair(1, 3, 0, 16) + END, (4, 19))
add(head() + single(1, 3, 1, 8, TOP + 1) + END, (4, 21))
add(head() + pair(1, 0, 1, 5, TOP + 1) + END, (4, 17))
group("two faults: a map's word before its map")
add(head() + silence(32, FULL) + END, (4, 16))
add(head() + silence(255, 1) + END, (4, 16))
group("two faults: the earlier command first")
add(size(0) + gap(0) + budget(TOP + 1) + END, (4, 1))
add(size() + gap(0) + budget(TOP + 1) + END, (4, 4))
add(size() + gap() + budget(TOP + 1) + b"\xff", (4, 7))
add(size(1025) + b"\xff", (4, 1))
add(head() + silence(0, 8) + silence(32, 0) + END, (5, 17))
add(head() + pair(1, 0) + b"\xff" + END + END, (4, 17))
add(head() + b"\xff" + pair(3), (3, 15))
add(head() + pair(1) + pair(1) + END + END, (6, 31))


def in_tenths(d, sheet):
    """A sheet whose gap 02 gives, with 08 in its place."""
    return sheet[:3] + tenths(d) + sheet[6:]


group("W1: 08 with 0, 1, 99, 100, 101, 200, 239, 240, 241, 255")
for d in (0, 1, 99, 100, 101, 200, 239, 240):
    add(size() + tenths(d) + budget() + END, (3, 0, 0))
for d in (241, 255):
    add(size() + tenths(d) + budget() + END, (4, 4))
group("W1: a sheet with 08, cut at every length up to the end of its budget, and before its end")
whole = in_tenths(100, whole)
for n in [*range(4, 15), len(whole) - 1]:
    add(whole[:n], (2, n))
add(whole, (3, 2, 1))
group("W1: 32,767 bytes with 08; a byte more, two bytes more; 4,095 and more")
add(in_tenths(240, longest), (3, 1, 0))
add(in_tenths(240, longest) + END, (7, 32767))
add(in_tenths(240, longest) + END + END, (1, 0))
shorter = in_tenths(240, head() + NOTHING * 680 + END)
add(shorter, (3, 0, 0))
add(shorter + END, (7, 4095))
add(shorter + END + END, (7, 4095))
group("W1: 08 first, twice, after 02, before 02, after 03, among the tones, before the end, after it")
add(tenths(100) + size() + budget() + END, (3, 0))
add(size() + tenths(100) + tenths(100) + budget() + END, (3, 5))
add(size() + gap() + tenths(0) + budget() + END, (3, 6))
add(size() + tenths(0) + gap() + budget() + END, (3, 5))
add(size() + budget() + tenths(100) + END, (3, 3))
add(head() + tenths(0) + END, (3, 15))
add(in_tenths(0, head()) + tenths(0) + END, (3, 14))
add(in_tenths(0, head()) + gap() + END, (3, 14))
add(head() + pair(1) + tenths(100) + single(2) + END, (3, 30))
add(in_tenths(100, head()) + pair(1) + silence(0, 2) + tenths(100) + END, (3, 35))
add(in_tenths(100, head()) + END + tenths(100), (7, 15))
group("W1: after 08 not 03, but 04, 07, 09, an unknown command or nothing; one of 02 and 08 taken for the other")
for other in (pair(1), END, b"\x09", b"\xff"):
    add(size() + tenths(100) + other, (3, 5))
add(size() + tenths(100), (2, 5))
add(size() + b"\x08" + gap()[1:] + budget() + END, (3, 5))
add(size() + b"\x02" + tenths(100)[1:] + budget() + END, (3, 6))
group("W1, two faults: not allowed (3) before cut off (2), cut off before out of range (4); the earlier command first")
add(b"\x08", (3, 0))
add(size() + gap() + b"\x08", (3, 6))
add(head() + b"\x08", (3, 15))
add(size(0) + b"\x08", (4, 1))
add(size(1025) + tenths(241) + budget() + END, (4, 1))
add(size() + tenths(241), (4, 4))
add(size() + tenths(241) + b"\xff", (4, 4))
add(size() + tenths(241) + budget(TOP + 1) + END, (4, 4))
add(size() + tenths(240) + budget(TOP + 1) + END, (4, 6))
group("W1: the places after 08 are one less: 4, 5, 6 and 7 of a tone, a map and an end")
add(in_tenths(100, head() + pair(1, 0) + END), (4, 16))
add(in_tenths(100, head() + single(1, 3, 1, 8) + END), (4, 20))
add(in_tenths(100, head() + silence(32, 0) + END), (4, 15))
add(in_tenths(100, head() + pair(3) + END), (5, 15))
add(in_tenths(100, head() + silence(0, 8) + END), (5, 16))
add(in_tenths(100, head() + pair(1) + single(1) + END), (6, 30))
add(in_tenths(100, model.SAMPLE + b"\x00"), (7, 60))
group("W1, tidy: 08 is kept, and so is 02 with the gap of the same tenths; one byte less with 08")
for sheet in (in_tenths(100, model.SAMPLE), model.SAMPLE[:3] + gap(2560) + model.SAMPLE[6:]):
    add(sheet, (3, 3, 0))
assert len(model.tidy_form(model.read(in_tenths(0, model.SAMPLE)))) == len(model.SAMPLE) - 1
group("W1, tidy: tones in falling order, maps that join, maps that are dropped")
for d in (0, 120, 240):
    add(in_tenths(d, head() + NOTHING + single(2, 1, 1, 7) + silence(0, 1) + pair(1, 5, 1, 2) + silence(0, 5) + pair(0, 3, 1, 15) + END),
        (3, 3, 2))
add(in_tenths(8, head(256) + silence(7, 2) + single(255) + silence(0, 8) + pair(8) + silence(3, 0) + END), (256, 2, 2))

group("tidy: nothing described, nothing silenced; each end of the numbers")
add(size(1) + gap(65535) + budget(0) + END, (1, 0, 0))
add(size(256) + gap(0x0123) + budget(0x4567_89ab_cdef) + END, (256, 0, 0))
group("tidy: tones in falling order, and in a mixed one")
add(head() + single(2, 1, 1, 7) + pair(1, 5, 1, 2) + pair(0, 3, 1, 15) + END, (3, 3, 0))
add(head(256) + pair(255, 0x1234, 0x5678, 9, 0x1a2b_3c4d_5e6f) + single(0, 1, 2, 3, TOP) + pair(128) + single(127) + pair(32) + pair(31)
    + single(1) + END, (256, 7, 0))
group("tidy: a tone silenced before its description, after it, both, and one that is not described")
add(head() + silence(0, 2) + pair(1) + END, (3, 1, 1))
add(head() + pair(1) + silence(0, 2) + END, (3, 1, 1))
add(head() + silence(0, 2) + single(1) + silence(0, 2) + END, (3, 1, 1))
add(head() + pair(1) + silence(0, 5) + END, (3, 1, 2))
add(head() + silence(0, 7) + single(2) + single(1) + single(0) + END, (3, 3, 3))
group("tidy: maps of one word join, bits in common count once")
add(head(64) + silence(0, 1) + silence(0, 2) + silence(0, 1 << 31) + END, (64, 0, 3))
add(head(64) + silence(1, 0xf0f0) + silence(1, 0x0ff0) + END, (64, 0, 12))
add(head(64) + silence(1, 0xffff0000) + pair(40) + silence(0, 0x80000001) + silence(1, 0xffff) + single(7) + silence(0, 6) + END, (64, 2, 36))
add(head(64) + silence(1, 4) + silence(1, 4) + silence(1, 0) + END, (64, 0, 1))
group("tidy: zero maps are dropped, words rise")
add(head() + NOTHING + END, (3, 0, 0))
add(head() + NOTHING + pair(0) + NOTHING + END, (3, 1, 0))
add(head(256) + b"".join(silence(w, 0) for w in range(8)) + END, (256, 0, 0))
add(head(256) + b"".join(silence(w, 1 << 4 * w) for w in range(7, -1, -1)) + END, (256, 0, 8))
add(head(256) + silence(7, 0xdeadbeef) + silence(5, 0) + silence(2, 0x01020304) + silence(4, 0) + silence(2, 0x10) + END, (256, 0, 24 + 6))
add(head(256) + b"".join(silence(w, FULL) for w in range(8)) + END, (256, 0, 256))

group("tidy: a full line, 256 tones in mixed order among maps that join to all eight full")
dice = random.Random(256)
commands = []
for number in range(256):
    command = dice.choice((4, 5))
    commands.append(tone(command, number, dice.randint(1, 65535), dice.randint(1, 65535),
                         dice.randint(0, 15 if command == 4 else 7), dice.randint(0, TOP)))
for word in range(8):
    bits = dice.getrandbits(32)
    commands += [silence(word, bits), silence(word, FULL ^ bits), silence(word, dice.getrandbits(32))]
dice.shuffle(commands)
add(head(256) + b"".join(commands) + END, (256, 256, 256))
group("tidy: 4,096 bytes with the end as the last, tones among silences")
sheet = head(256) + b"".join(tone(4 + n % 2, 255 - n, n + 1, 256 - n, n % 8, n * n) for n in range(80))
sheet += b"".join(silence(n % 8, 1 << n // 8 * 7 % 32) for n in range((4096 - 16 - 1200) // 6)) + END
assert len(sheet) == 4096
add(sheet, (256, 80, 256))

# The loadings. `short` below each is the same call with one byte too few: it shows refusal 8 before 9, 10 and 11.


def line(n, b, *commands):
    return head(n, b) + b"".join(commands) + END


def at_budget(b, sheet):
    """A sheet with another budget."""
    return sheet[:6] + budget(b) + sheet[15:]


def ends(sheet, loading_of=model.loading_of):
    """The powers that the adding run of a sheet passes through, up to the full table."""
    tones = loading_of(at_budget(TOP, sheet))
    return [tones.total(tones.adding(bits)) for bits in range(1, sum(tones.limits) + 1)]


sample = model.sample
LARGEST = 2**32 - 1

group("document 01: most bits of the sample line at 39, 38, 50, 51, 2, 3, 170, 171")
for b, bits in [(39, [3, 2, 1]), (38, [2, 2, 1]), (50, [3, 2, 1]), (51, [3, 2, 2]), (2, [0, 0, 0]), (3, [1, 0, 0]), (170, [5, 2, 2]),
                (171, [5, 2, 3])]:
    most(sample(b), bits)
group("document 01: target 6 at 39 and at 38; target 11 at 39, 171, 2^47; target 0")
target(6, sample(39), [3, 2, 1])
target(6, sample(38), (11, 0))
for b in (39, 171, TOP):
    target(11, sample(b), (11, 0))
target(0, sample(39), [0, 0, 0])
group("document 01: re-fit from 0, 2, 3 at 39; its three steps, and a fourth that is finished")
refit([0, 2, 3], sample(39), ([3, 2, 1], 3))
step([0, 2, 3], sample(39), ([1, 2, 2], 1))
step([1, 2, 2], sample(39), ([2, 2, 1], 1))
step([2, 2, 1], sample(39), ([3, 2, 1], 1))
step([3, 2, 1], sample(39), ([3, 2, 1], 0))
group("document 01: the same at 38, where 1, 2, 2 fits and is not the end")
refit([0, 2, 3], sample(38), ([2, 2, 1], 2))
step([1, 2, 2], sample(38), ([2, 2, 1], 1))
step([2, 2, 1], sample(38), ([2, 2, 1], 0))
group("document 01: cost at gap 257, noise 1, gain 1; at 256, 7, 2; the least and the largest cost; both kinds")
for g, noise, gain, cost in [(257, 1, 1, 2), (256, 7, 2, 4), (256, 1, 65535, 1), (65535, 65535, 1, 16776705)]:
    for kind, power in [(4, cost), (5, 3 * cost)]:
        sheet = size(1) + gap(g) + budget(TOP) + tone(kind, 0, noise, gain, 1, TOP) + END
        assert model.loading_of(sheet).power(0, 1) == power
        most(sheet, [1])
group("document 01: the limit of a pair at cost 3 by masks 2, 3, 8, 9; of a single at cost 1 by masks 2, 3, 14, 15")
for mask, bits in [(2, 0), (3, 1), (8, 1), (9, 2)]:
    most(line(1, TOP, pair(0, 3, 1, 15, mask)), [bits])
for mask, bits in [(2, 0), (3, 1), (14, 1), (15, 2)]:
    most(line(1, TOP, single(0, 1, 1, 7, mask)), [bits])
group("caps 0, 1 and the largest under a mask of 2^47; mask 0")
for kind, largest in [(4, 15), (5, 7)]:
    for cap in (0, 1, largest):
        most(line(1, TOP, tone(kind, 0, 1, 1, cap, TOP)), [cap])
    most(line(1, TOP, tone(kind, 0, 1, 1, largest, 0)), [0])

group("W1: the gap that 08 gives, as the power of one bit at noise 256, gain 1; a cost that it rounds up, at noise 1")
for d, g in [(0, 256), (1, 262), (99, 2502), (100, 2560), (101, 2620), (120, 4058), (200, 25600), (239, 62841), (240, 64305)]:
    sheet = in_tenths(d, line(1, TOP, pair(0, 256, 1, 1, TOP)))
    # A whole number of 1/256 only at 0, 100 and 200; between them the gap is rounded up.
    assert g**100 >= 256**100 * 10**d > (g - 1)**100 and model.loading_of(sheet).power(0, 1) == g
    most(sheet, [1])
for d, cost in [(0, 1), (1, 2), (100, 10), (101, 11), (200, 100), (240, 252)]:
    for kind, power in [(4, cost), (5, 3 * cost)]:
        for b, bits in [(power - 1, [0]), (power, [1])]:
            most(in_tenths(d, line(1, b, tone(kind, 0, 1, 1, 1, TOP))), bits)
group("W1: a mask and a budget that 12 dB as 08 of 120, 4058, break and the nearest gap, 4057, keeps")
for g, bits in [(4057, [1]), (4058, [0])]:
    for b, mask in [(TOP, 4057), (4057, TOP)]:
        most(size(1) + gap(g) + budget(b) + pair(0, 256, 1, 1, mask) + END, bits)
for b, mask, bits in [(TOP, 4057, [0]), (4057, TOP, [0]), (4058, 4058, [1])]:
    most(in_tenths(120, line(1, b, pair(0, 256, 1, 1, mask))), bits)


def alike(call, *rest):
    """A call on the sample line with all powers ten times as large, at a budget: the gap 2,560 from 02, and then from 08 of 100."""
    *before, b, answer = rest
    whole = size() + gap(2560) + budget(b) + pair(0, 3, 1, 15, 1000) + pair(1, 5, 1, 2, 1000) + single(2, 1, 1, 7, 1000) + END
    assert model.loading_of(whole).powers == model.loading_of(in_tenths(100, whole)).powers
    for sheet in (whole, in_tenths(100, whole)):
        call(*before, sheet, answer)


group("W1: 02 with 2,560 and 08 with 100 load alike: most bits at 390, 389, 1,710; targets 6, 7 at 390; 11 at 1,710")
for b, bits in [(390, [3, 2, 1]), (389, [2, 2, 1]), (1710, [5, 2, 3])]:
    alike(most, b, bits)
alike(target, 6, 390, [3, 2, 1])
alike(target, 7, 390, (11, 0))
alike(target, 11, 1710, (11, 0))
group("W1: 02 with 2,560 and 08 with 100 re-fit alike, from 0, 2, 3 at 390 and at 380, and from the full table; and step by step")
alike(refit, [0, 2, 3], 390, ([3, 2, 1], 3))
alike(refit, [0, 2, 3], 380, ([2, 2, 1], 2))
alike(refit, [5, 2, 3], 390, ([3, 2, 1], 4))
for start, end in [([0, 2, 3], ([1, 2, 2], 1)), ([1, 2, 2], ([2, 2, 1], 1)), ([2, 2, 1], ([3, 2, 1], 1)), ([3, 2, 1], ([3, 2, 1], 0))]:
    alike(step, start, 390, end)
group("W1: limits that the gap of 08 lowers: 9 before 10, and 10 at the first tone above its limit")
dear = in_tenths(100, line(3, TOP, pair(0, 3, 1, 15, 100), pair(1, 5, 1, 2, 100), single(2, 1, 1, 7, 100)))
assert model.loading_of(dear).limits == [2, 1, 1]
most(dear, [2, 1, 1])
refit([2, 1, 1], dear, ([2, 1, 1], 0))
refit([2, 2, 2], dear, (10, 1))
step([3, 1, 1], dear, (10, 0))
refit([3, 1], dear, (9, 0))
group("W1: a damaged sheet with 08 before all")
for sheet, answer in [(in_tenths(241, sample(39)), (4, 4)), (in_tenths(100, sample(39))[:-1], (2, 59)), (size() + b"\x08", (2, 4))]:
    most(sheet, answer)
    target(LARGEST, sheet, answer)
    refit([255], sheet, answer)
    step([], sheet, answer)

group("budgets at each end of the sample line's run, and one below; 0 and 2^47")
assert ends(sample(0)) == [3, 6, 11, 17, 27, 39, 51, 75, 123, 171]
for b in ends(sample(0)):
    for budgeted in (b - 1, b):
        most(sample(budgeted))
most(sample(0), [0, 0, 0])
most(sample(TOP), [5, 2, 3])
group("the same for a line with ties, a silenced tone and one not described; the re-fit from its full table")
tied = line(5, 0, single(0, 2, 1, 3, 200), pair(1, 6, 1, 4, 200), pair(2, 1, 1, 4, 200), silence(0, 4), pair(4, 3, 1, 5, 200))
assert model.loading_of(tied).limits == [3, 4, 0, 0, 5]
for b in ends(tied):
    for budgeted in (b - 1, b):
        bits = most(at_budget(budgeted, tied))
        refit([3, 4, 0, 0, 5], at_budget(budgeted, tied), (bits, 12 - sum(bits)))

group("ties: three pairs of cost 3 at 3, 6, 9, 14, 15, 21; three singles of cost 1 at 3, 6, 9, 20, 21")
pairs = [pair(n, 3, 1, 15, 1000) for n in range(3)]
for b, bits in [(3, [1, 0, 0]), (6, [1, 1, 0]), (9, [1, 1, 1]), (14, [1, 1, 1]), (15, [2, 1, 1]), (21, [2, 2, 1])]:
    most(line(3, b, *pairs), bits)
for b, bits in [(3, [1, 0, 0]), (6, [1, 1, 0]), (9, [1, 1, 1]), (20, [1, 1, 1]), (21, [2, 1, 1])]:
    most(line(3, b, *(single(n, 1, 1, 7, 1000) for n in range(3))), bits)
group("ties: a pair of cost 3 and a single of cost 1 at 3, 6, 24, in both orders, described in both orders")
for b, first, second in [(3, [1, 0], [1, 0]), (6, [1, 1], [1, 1]), (24, [3, 1], [2, 2])]:
    most(line(2, b, pair(0, 3), single(1, 1)), first)
    most(line(2, b, single(1, 1), pair(0, 3)), first)
    most(line(2, b, single(0, 1), pair(1, 3)), second)
group("ties: pairs of costs 1, 2, 4 at 3, 5, 9, 13, 17: equal steps at different bits; the same with 4, 2, 1")
for b, first, second in [(3, [2, 0, 0], [0, 1, 1]), (5, [2, 1, 0], [0, 1, 2]), (9, [3, 1, 0], [1, 1, 2]), (13, [3, 2, 0], [1, 2, 2]),
                         (17, [3, 2, 1], [1, 2, 3])]:
    most(line(3, b, *(pair(n, 1 << n) for n in range(3))), first)
    most(line(3, b, *(pair(n, 4 >> n) for n in range(3))), second)
group("ties in a re-fit: an exchange to a lower tone of equal size is a move, one to a higher is none")
for b, start, bits, moves in [(3, [0, 0, 1], [1, 0, 0], 1), (3, [0, 1, 0], [1, 0, 0], 1), (3, [1, 0, 0], [1, 0, 0], 0),
                              (6, [0, 1, 1], [1, 1, 0], 1), (6, [1, 0, 1], [1, 1, 0], 1), (6, [0, 0, 2], [1, 1, 0], 2)]:
    refit(start, line(3, b, *pairs), (bits, moves))
step([0, 0, 2], line(3, 6, *pairs), ([1, 0, 1], 1))
step([0, 1, 1], line(3, 3, *pairs), ([1, 1, 0], 1))
step([1, 1, 0], line(3, 3, *pairs), ([1, 0, 0], 1))
group("ties in a re-fit of both kinds: single 0 of cost 1, pair 1 of cost 3")
refit([0, 3], line(2, 24, single(0, 1), pair(1, 3)), ([2, 2], 2))
refit([1, 3], line(2, 24, single(0, 1), pair(1, 3)), ([2, 2], 1))
refit([2, 1], line(2, 24, pair(0, 3), single(1, 1)))

group("silenced tones of the sample line: 1 before its description, 1 after it, 0 and 2, all")
described = [sample(0)[15 + 15 * n:30 + 15 * n] for n in range(3)]
most(line(3, 171, silence(0, 2), *described), [5, 0, 3])
most(line(3, 171, *described, silence(0, 2)), [5, 0, 3])
most(line(3, 39, *described[:1], silence(0, 5), *described[1:]), [0, 2, 0])
most(line(3, TOP, *described, silence(0, 7)), [0, 0, 0])
target(0, line(3, TOP, *described, silence(0, 7)), [0, 0, 0])
target(1, line(3, TOP, *described, silence(0, 7)), (11, 0))
refit([0, 0, 0], line(3, TOP, *described, silence(0, 7)), ([0, 0, 0], 0))
step([0, 0, 0], line(3, TOP, silence(0, 7)), ([0, 0, 0], 0))
refit([2, 0, 3], line(3, 51, silence(0, 2), *described))
group("tones not described: all, 1, 0 and 2")
most(line(3, TOP), [0, 0, 0])
target(1, line(3, TOP), (11, 0))
refit([0, 0, 0], line(3, 0), ([0, 0, 0], 0))
most(line(3, 171, described[2], described[0]), [5, 0, 3])
target(2, line(3, 15, described[1]), [0, 2, 0])
target(2, line(3, 14, described[1]), (11, 0))
refit([0, 2, 0], line(3, 14, described[1]), ([0, 1, 0], 1))

group("N 1: pair, single, silenced, not described")
for b, bits in [(2, 0), (3, 1), (92, 4), (93, 5), (94, 5)]:
    most(line(1, b, pair(0, 3, 1, 5, 100)), [bits])
most(line(1, 62, single(0, 1, 1, 3, 100)), [2])
most(line(1, 63, single(0, 1, 1, 3, 100)), [3])
most(line(1, TOP, pair(0), silence(0, 1)), [0])
most(line(1, TOP), [0])
refit([5], line(1, 10, pair(0, 3, 1, 5, 100)), ([2], 3))
step([5], line(1, 10, pair(0, 3, 1, 5, 100)), ([4], 1))
step([0], line(1, 10, pair(0, 3, 1, 5, 100)), ([1], 1))
group("N 32 and 33: the longest table that is printed by tones, and one more; N 256 with tones 0, 31, 32, 255 alone")
for n in (32, 33):
    most(line(n, 40, pair(0), single(n - 1, 1), pair(5, 1)))
four = [pair(255, 1, 1, 15, TOP), single(32, 1, 1, 7, TOP), pair(31, 2, 1, 15, TOP), single(0, 2, 1, 7, TOP)]
most(line(256, 200, *four))
most(line(256, TOP, *four))
most(line(256, TOP), [0] * 256)
refit([0] * 255 + [15], line(256, 200, *four))

group("targets of the sample line at 171, each from 0 to 10; 11; 2^32 - 1")
for bits in range(11):
    target(bits, sample(171))
target(11, sample(171), (11, 0))
target(LARGEST, sample(171), (11, 0))
target(LARGEST, sample(TOP), (11, 0))
group("targets equal to the most bits, and one more, at 0, 2, 3, 38, 50, 170, 2^47")
for b in (0, 2, 3, 38, 50, 170, TOP):
    bits = most(sample(b))
    target(sum(bits), sample(b), bits)
    target(sum(bits) + 1, sample(b), (11, 0))

group("re-fit of the full sample line at 171, 170, 39, 2, 0: removing")
for b, bits in [(171, [5, 2, 3]), (170, [5, 2, 2]), (39, [3, 2, 1]), (2, [0, 0, 0]), (0, [0, 0, 0])]:
    refit([5, 2, 3], sample(b), (bits, 10 - sum(bits)))
step([5, 2, 3], sample(171), ([5, 2, 3], 0))
step([5, 2, 3], sample(170), ([5, 2, 2], 1))
group("re-fit of the sample line from no bits: adding")
for b in (2, 3, 39, TOP):
    bits = most(sample(b))
    refit([0, 0, 0], sample(b), (bits, sum(bits)))
step([0, 0, 0], sample(2), ([0, 0, 0], 0))
step([0, 0, 0], sample(3), ([1, 0, 0], 1))
group("re-fit from the table that it ends in: no move, and its step is finished")
for b, bits in [(2, [0, 0, 0]), (38, [2, 2, 1]), (50, [3, 2, 1]), (123, [5, 2, 2]), (171, [5, 2, 3])]:
    refit(bits, sample(b), (bits, 0))
    step(bits, sample(b), (bits, 0))
group("starts above the budget, with and without an exchange first")
for start, moves in [([5, 0, 0], 6), ([0, 0, 3], 3), ([0, 2, 2], 4), ([4, 2, 2], 6), ([5, 2, 0], 7)]:
    refit(start, sample(10), ([1, 0, 1], moves))
    step(start, sample(10))

group("9: a start of N - 1, N + 1, no bytes; of 255 and 257 for N 256")
for start in ([0, 2], [0, 2, 3, 0], []):
    refit(start, sample(39), (9, 0))
    step(start, sample(39), (9, 0))
refit([0] * 255, line(256, TOP), (9, 0))
refit([0] * 257, line(256, TOP), (9, 0))
refit([0] * 256, line(256, TOP), ([0] * 256, 0))
group("10: a start above a limit, at the first such tone")
for start, place in [([6, 0, 0], 0), ([5, 3, 4], 1), ([5, 2, 4], 2), ([0, 0, 255], 2), ([6, 3, 4], 0)]:
    refit(start, sample(TOP), (10, place))
    step(start, sample(TOP), (10, place))
group("10: one bit on a silenced tone, on one not described, on the last of 256")
refit([0, 1, 0], line(3, 171, *described, silence(0, 2)), (10, 1))
step([0, 1, 0], line(3, 171, silence(0, 2), *described), (10, 1))
refit([0, 0, 1], line(3, 171, *described[:2]), (10, 2))
refit([0, 1, 1], line(3, 171, described[1], silence(0, 4)), (10, 2))
refit([0] * 255 + [1], line(256, TOP), (10, 255))
step([0] * 255 + [1], line(256, TOP, pair(255), silence(7, 1 << 31)), (10, 255))
group("order: 9 before 10")
for start in ([255], [255] * 4, [6, 3]):
    refit(start, sample(39), (9, 0))
step([255] * 2, sample(39), (9, 0))
group("order: a damaged sheet before all, here with no room too")
for sheet, answer in [(sample(39)[:-1], (2, 60)), (sample(39) + END, (7, 61)), (b"", (2, 0)), (at_budget(TOP + 1, sample(0)), (4, 7)),
                      (line(3, 39, pair(1), pair(1)), (6, 31)), (b"\xff" * 32769, (1, 0))]:
    most(sheet, answer)
    target(LARGEST, sheet, answer)
    refit([255], sheet, answer)
    step([], sheet, answer)

# Lines of 256 tones, written with a running tone number.
WIDE = "000080 00*5"


def wide(b, body, g=256, n=256):
    return "%s %s %s %s 07" % (hexed(size(n), ""), hexed(gap(g), ""), hexed(budget(b), ""), body)


ALL_PAIRS = "(04 ++ 0001 0001 0f %s)*256" % WIDE
ALL_SINGLES = "(05 ++ 0001 0001 07 %s)*256" % WIDE
LARGEST_COST_PAIRS = "(04 ++ ffff 0001 0f %s)*256" % WIDE
LARGEST_COST_SINGLES = "(05 ++ ffff 0001 07 %s)*256" % WIDE
BY_TURNS = "(04 ++ 01== 0020 0f %s 05 ++ 01== 000a 07 %s)*128" % (WIDE, WIDE)
HALVES = "(05 ++ 01== 0007 07 %s)*128 (04 ++ 01== 0030 0f %s)*128" % (WIDE, WIDE)
group("256 pairs of cost 1, cap 15, mask 2^47: at 2^47, at the full table's power and one below, at 1,000,000, at 255")
for b in (TOP, 256 * 32767, 256 * 32767 - 1, 1000000, 255):
    most(wide(b, ALL_PAIRS))
group("256 singles of cost 1, cap 7, mask 2^47: the same")
for b in (TOP, 256 * 16383, 256 * 16383 - 1, 1000000, 767):
    most(wide(b, ALL_SINGLES))
group("256 pairs, and 256 singles, of the largest cost, 16,776,705: at 2^47, at the full table's power and one below, and half of it")
for body, full in [(LARGEST_COST_PAIRS, 256 * 32767 * 16776705), (LARGEST_COST_SINGLES, 256 * 16383 * 16776705)]:
    assert full <= TOP
    for b in (TOP, full, full - 1, full // 2):
        most(wide(b, body, 65535))
group("256 tones, pairs and singles by turns, costs that rise: at 2^47, 50,000,000, 3,000,000, 12,345")
for b in (TOP, 50000000, 3000000, 12345):
    most(wide(b, BY_TURNS))
group("256 tones, 128 singles then 128 pairs: at 2^47, 3,000,000; targets 1,000, the most bits, one more, 2^32 - 1")
most(wide(TOP, HALVES))
bits = most(wide(3000000, HALVES))
target(1000, wide(3000000, HALVES))
target(sum(bits), wide(3000000, HALVES), bits)
target(sum(bits) + 1, wide(3000000, HALVES), (11, 0))
target(LARGEST, wide(3000000, HALVES), (11, 0))
target(256 * 15, wide(TOP, ALL_PAIRS), [15] * 256)
target(256 * 15 + 1, wide(TOP, ALL_PAIRS), (11, 0))
group("256 tones: re-fits from the full table, from no bits, from others; as many moves as the limits add up to at budget 0")
refit([15] * 256, wide(0, ALL_PAIRS), ([0] * 256, 3840))
refit([15] * 256, wide(1000000, ALL_PAIRS))
refit([0] * 256, wide(TOP, ALL_PAIRS), ([15] * 256, 3840))
refit([0] * 128 + [15] * 128, wide(1000000, ALL_PAIRS))
refit([0] * 128 + [7] * 128, wide(1000000, ALL_SINGLES))
refit([15] * 256, wide(256 * 32767 * 16776705 - 1, LARGEST_COST_PAIRS, 65535), ([15] * 255 + [14], 1))
refit("(0f 07)*128", wide(3000000, BY_TURNS))
refit("(00 07)*128", wide(3000000, BY_TURNS))
refit("(0f 00)*128", wide(3000000, BY_TURNS))
refit("(07 00)*64 (03 0f)*64", wide(3000000, HALVES))
group("256 tones: steps from a full table above the budget, from no bits, from one that exchanges, from the end")
step([15] * 256, wide(0, ALL_PAIRS), ([15] * 255 + [14], 1))
step([0] * 256, wide(TOP, ALL_PAIRS), ([1] + [0] * 255, 1))
step([0] * 128 + [15] * 128, wide(TOP, ALL_PAIRS), ([1] + [0] * 127 + [15] * 127 + [14], 1))
step([15] * 256, wide(TOP, ALL_PAIRS), ([15] * 256, 0))
step("(00 07)*128", wide(3000000, BY_TURNS))
group("256 tones: 10 at the first tone above its limit")
refit([15] * 256, wide(TOP, BY_TURNS), (10, 1))
refit([15] * 255 + [16], wide(TOP, ALL_PAIRS), (10, 255))
group("256 tones, 110 of them described, in mixed order among silences")
commands = []
for number in dice.sample(range(256), 110):
    kind = dice.choice((4, 5))
    commands.append(tone(kind, number, dice.randint(1, 65535), dice.randint(1, 999), dice.randint(0, 15 if kind == 4 else 7),
                         dice.randint(0, 2**dice.randint(10, 30))))
commands += [silence(word, dice.getrandbits(32) & dice.getrandbits(32)) for word in range(8)]
dice.shuffle(commands)
sheet = line(256, 40000000, *commands)
most(sheet)
refit([dice.randint(0, limit) for limit in model.loading_of(sheet).limits], sheet)

group("a dozen lines of up to six tones: re-fit, step, target")
for _ in range(12):
    n = dice.randint(1, 6)
    commands = [tone(kind, number, dice.randint(1, 9), dice.randint(1, 3), dice.randint(0, 15 if kind == 4 else 7), dice.randint(0, 500))
                for number in dice.sample(range(n), dice.randint(1, n)) for kind in [dice.choice((4, 5))]]
    if dice.randint(0, 2) == 0:
        commands.insert(dice.randint(0, len(commands)), silence(0, dice.getrandbits(n) & dice.getrandbits(n)))
    sheet = line(n, dice.randint(0, 300), *commands)
    limits = model.loading_of(sheet).limits
    start = [dice.randint(0, limit) for limit in limits]
    bits, _ = refit(start, sheet)
    step(start, sheet)
    target(max(0, sum(bits) - dice.randint(-1, 3)), sheet)

group("W3: the limits of the sample line and what set them, whatever the budget")
for b in (39, 0, TOP):
    limited(sample(b), "5:mask 2:cap 3:mask")
group("W3: cap 0; mask 0 under a cap above 0; both 0; each kind")
for kind, largest in [(4, 15), (5, 7)]:
    limited(line(1, TOP, tone(kind, 0, 1, 1, 0, TOP)), "0:cap")
    limited(line(1, TOP, tone(kind, 0, 1, 1, largest, 0)), "0:mask")
    limited(line(1, TOP, tone(kind, 0, 1, 1, 0, 0)), "0:cap")
group("W3: the limit is the cap, and one bit more would break the mask too, or not; masks round the power of the cap's bits; each kind")
for kind, cap, power in [(4, 2, 9), (5, 2, 45)]:
    for mask, answer in [(power - 1, "1:mask"), (power, "2:cap"), (power + 1, "2:cap"), (TOP, "2:cap")]:
        limited(line(1, TOP, tone(kind, 0, 3, 1, cap, mask)), answer)
for kind, largest in [(4, 15), (5, 7)]:
    limited(line(1, TOP, tone(kind, 0, 1, 1, largest, TOP)), "%d:cap" % largest)
    limited(line(1, TOP, tone(kind, 0, 65535, 1, largest, TOP)), "%d:cap" % largest)
group("W3: silent: not described; silenced before and after its description; silenced and not described; with cap 0, with mask 0")
limited(line(3, 39), "0:silent 0:silent 0:silent")
limited(line(3, 39, pair(1)), "0:silent 5:cap 0:silent")
limited(line(4, 39, silence(0, 1), pair(0), pair(1), silence(0, 10)), "0:silent 0:silent 0:silent 0:silent")
limited(line(3, 39, pair(0, 3, 1, 0, 100), pair(1, 3, 1, 5, 0), pair(2, 3, 1, 5, 0), silence(0, 3)), "0:silent 0:silent 0:mask")
group("W3: the gap counts: the sample line in tenths of a decibel, 0 and 1 and 240")
for d, answer in [(0, "5:mask 2:cap 3:mask"), (1, "4:mask 2:cap 2:mask"), (240, "0:mask 0:mask 0:mask")]:
    limited(in_tenths(d, sample(39)), answer)
group("W3: refusals of the sheet, each number")
limited(head() + TOO_LONG, (1, 0))
limited(sample(39)[:60], (2, 60))
limited("-", (2, 0))
limited(b"\x02", (3, 0))
limited(line(3, 39, pair(0, 0)), (4, 17))
limited(line(3, 39, pair(3)), (5, 16))
limited(line(3, 39, pair(0), single(0)), (6, 31))
limited(sample(39) + END, (7, 61))
group("W3: 256 tones: all alike, by turns, the last alone described")
limited(wide(TOP, ALL_PAIRS))
limited(wide(TOP, BY_TURNS))
limited(line(256, 39, pair(255)), "0:silent " * 255 + "5:cap")
group("W4: masks at and round the power of each number of bits, then every cap under a mask that allows more; each kind; the least and the largest cost")
for g, noise, w in [(256, 1, 1), (65535, 65535, 16776705)]:
    tones, answers = [], []
    for kind, largest, base in [(4, 15, 2), (5, 7, 4)]:
        for b in range(1, largest + 1):
            power = w * (base ** b - 1)
            for mask, limit in [(power - 1, b - 1), (power, b), (power + 1, b)]:
                tones.append(tone(kind, len(tones), noise, 1, largest, mask))
                answers.append("%d:%s" % (limit, "cap" if limit == largest else "mask"))
        for cap in range(largest + 1):
            tones.append(tone(kind, len(tones), noise, 1, cap, TOP))
            answers.append("%d:cap" % cap)
    limited(size(len(tones)) + gap(g) + budget(TOP) + b"".join(tones) + END, " ".join(answers))

# Floats by their bits: the ends of the subnormals and of the normal ones; 1, 2, 3; and one that is not a number.
SMALLEST, LAST_SUBNORMAL, NORMAL, GREATEST = 0x00000001, 0x007fffff, 0x00800000, 0x7f7fffff
ONE, TWO, THREE, NAN = 0x3f800000, 0x40000000, 0x40400000, 0x7fc00000

group("W5: 09 and 0a, each alone, and both among tones and silences of other commands")
add(head() + reading(1, THREE, ONE) + END, (3, 1, 0))
add(head() + reading(1, THREE) + END, (3, 1, 0))
add(head(5) + pair(0) + reading(1, THREE, ONE) + silence(0, 18) + reading(2, float_of(5)) + single(3) + reading(4, ONE) + END, (5, 5, 2))
group("W5: floats above zero: subnormals, the smallest normal, 1 and its neighbours; as ratio, as noise, as gain; the largest as gain")
above = [SMALLEST, 2, 0x0012a5f3, 0x00400000, LAST_SUBNORMAL, NORMAL, NORMAL + 1, ONE - 1, ONE, ONE + 1]
floats = [(bits,) for bits in above] + [(bits, ONE) for bits in above] + [(bits, bits) for bits in above] + [(GREATEST, GREATEST)]
add(head(len(floats)) + b"".join(reading(n, *bits) for n, bits in enumerate(floats)) + END, (31, 31, 0))
add(head() + reading(1, ONE, GREATEST) + END, (3, 1, 0))
add(head() + reading(1, SMALLEST, GREATEST) + END, (3, 1, 0))
group("W5, 12: zeros, infinities, not a number with several payloads, below zero down to the subnormals; as ratio, as noise, as gain")
for bits in (0, 0x80000000, 0x7f800000, 0xff800000, 0x7f800001, 0x7fc00000, 0xffffffff, 0x80000001, 0xbf800000):
    add(head() + reading(1, bits) + END, (12, 17))
    add(head() + reading(1, bits, ONE) + END, (12, 17))
    add(head() + reading(1, ONE, bits) + END, (12, 21))
for bits in (0xff800001, 0x7fbfffff, 0x7fffffff, 0xffc00000, 0x807fffff, 0x80800000, 0xff7fffff):
    add(head() + reading(1, bits) + END, (12, 17))
group("W5, 13: the quotient is infinite, by far and just; it is the largest float, or near it; a ratio of the largest float")
for noise, gain in [(GREATEST, SMALLEST), (ONE, SMALLEST), (GREATEST, ONE), (GREATEST, ONE - 1), (GREATEST - 1, ONE - 1)]:
    add(head() + reading(1, noise, gain) + END, (13, 17))
add(head() + reading(1, GREATEST) + END, (13, 17))
group("W5, cap: 0, 15, 16, 255; mask: 0, 2^47, 2^47 + 1, 2^64 - 1; of 09 and of 0a")
for floats in ((THREE, ONE), (THREE,)):
    at = 17 + 4 * len(floats)
    for cap, answer in [(0, (3, 1, 0)), (15, (3, 1, 0)), (16, (4, at)), (255, (4, at))]:
        add(head() + reading(1, *floats, cap=cap) + END, answer)
    for mask, answer in [(0, (3, 1, 0)), (TOP, (3, 1, 0)), (TOP + 1, (4, at + 1)), (2**64 - 1, (4, at + 1))]:
        add(head() + reading(1, *floats, mask=mask) + END, answer)
group("W5, two faults: 12 at the noise, then at the gain, then 13, then 4 at the cap, then at the mask")
DEAR = float_of(16776706)
for floats, cap, mask, answer in [
        ((0, 0), 255, TOP + 1, (12, 17)), ((NAN, 0x80000000), 5, 100, (12, 17)), ((DEAR, 0), 16, TOP + 1, (12, 21)),
        ((DEAR, NAN), 5, 100, (12, 21)), ((ONE, 0), 16, 100, (12, 21)), ((ONE, 0), 5, TOP + 1, (12, 21)),
        ((DEAR, ONE), 16, 100, (13, 17)), ((DEAR, ONE), 5, TOP + 1, (13, 17)), ((DEAR, ONE), 255, TOP + 1, (13, 17)),
        ((GREATEST, SMALLEST), 16, TOP + 1, (13, 17)), ((ONE, ONE), 16, TOP + 1, (4, 25)),
        ((0,), 16, TOP + 1, (12, 17)), ((DEAR,), 16, 100, (13, 17)), ((DEAR,), 5, TOP + 1, (13, 17)),
        ((DEAR,), 16, TOP + 1, (13, 17)), ((ONE,), 16, TOP + 1, (4, 21))]:
    add(head() + reading(1, *floats, cap=cap, mask=mask) + END, answer)
group("W5, two faults: cut off (2) before all of these; the tone (5, 6) before its floats; the earlier command first")
add(head() + reading(3, 0, NAN, cap=255)[:18], (2, 33))
add(head() + reading(1, DEAR, ONE)[:18], (2, 33))
add(head() + reading(1, NAN)[:6], (2, 21))
add(head() + reading(1, DEAR, cap=16)[:14], (2, 29))
for floats in ((0, 0), (DEAR, ONE), (NAN,), (DEAR,)):
    add(head() + reading(3, *floats, cap=16) + END, (5, 16))
    add(head() + pair(1) + reading(1, *floats, cap=16) + END, (6, 31))
add(head() + reading(0, DEAR) + reading(1, 0) + END, (13, 17))
add(head() + reading(0, ONE, 0) + reading(1, DEAR) + END, (12, 21))
add(head() + reading(0, ONE, ONE) + reading(1, ONE, DEAR) + reading(2, DEAR) + b"\xff", (13, 55))
add(head() + reading(0, ONE) + b"\x08" + reading(1, 0) + END, (3, 30))
add(head() + pair(0, 0) + reading(1, 0) + END, (4, 17))
group("W5: a 09, and a 0a, cut at each byte")
for floats in ((THREE, ONE), (THREE,)):
    whole = head() + reading(1, *floats)
    for n in range(16, len(whole) + 1):
        add(whole[:n], (2, n))
group("W5: tone N - 1 and N")
for floats in ((THREE, ONE), (THREE,)):
    for n in (1, 3, 255):
        add(head(n) + reading(n - 1, *floats) + END, (n, 1, 0))
        add(head(n) + reading(n, *floats) + END, (5, 16))
    add(head(256) + reading(255, *floats) + END, (256, 1, 0))
group("W5: a tone described twice, by any two of 04, 05, 09, 0a of which one has floats")
ways = [pair(1), single(1), reading(1, THREE, ONE), reading(1, THREE)]
for first in ways:
    for second in ways:
        if first in ways[2:] or second in ways[2:]:
            add(head() + first + second + END, (6, 16 + len(first)))
add(head() + ways[2] + single(0) + silence(0, 2) + reading(2, ONE) + ways[3] + END, (6, 71))
group("W5: 09 and 0a first, in place of 02, in place of 03, after the end; 0d after the first three")
for command in (reading(1, THREE, ONE), reading(1, THREE)):
    add(command + head() + END, (3, 0))
    add(size() + command + budget() + END, (3, 3))
    add(size() + gap() + command + END, (3, 6))
    add(size() + tenths(100) + command + END, (3, 5))
    add(head() + END + command, (7, 16))
add(head() + b"\x0d" + reading(1, THREE)[1:] + END, (3, 15))
group("W5: the places after 08 are one less: 12, 13, 4, 6")
add(in_tenths(100, head() + reading(1, ONE, 0) + END), (12, 20))
add(in_tenths(100, head() + reading(1, float_of(1677671), ONE) + END), (13, 16))
add(in_tenths(100, head() + reading(1, float_of(1677671)) + END), (13, 16))
add(in_tenths(100, head() + reading(1, ONE, ONE, cap=16) + END), (4, 24))
add(in_tenths(100, head() + reading(1, ONE) + reading(1, ONE, ONE) + END), (6, 30))

group("W5, tidy: tones of all four commands in falling order; the same in mixed order among maps, and with 08")
mixed = [reading(3, 0x12345678, 0x11223344, cap=15, mask=0x1a2b_3c4d_5e6f), single(2), reading(1, 0x48abcdef, cap=0, mask=TOP), pair(0)]
add(head(4) + b"".join(mixed) + END, (4, 4, 0))
mixed = [mixed[2], silence(0, 8), mixed[0], NOTHING, mixed[3], silence(0, 2), mixed[1]]
add(head(4) + b"".join(mixed) + END, (4, 4, 2))
add(in_tenths(120, head(4) + b"".join(mixed) + END), (4, 4, 2))
group("W5, tidy: floats of one value or one quotient with other bits are kept as they are; a reading beside its whole numbers")
add(line(6, 39, reading(5, float_of(6), TWO), reading(4, THREE, ONE), reading(3, THREE), pair(2, 3, 1), pair(1, 6, 2), reading(0, 6, 2)),
    (6, 6, 0))
group("W5, tidy: a reading silenced before its command, after it, both")
add(line(3, 39, silence(0, 2), reading(1, THREE, ONE)), (3, 1, 1))
add(line(3, 39, reading(1, THREE), silence(0, 2)), (3, 1, 1))
add(line(3, 39, silence(0, 6), reading(2, THREE), reading(1, THREE, ONE), silence(0, 3)), (3, 2, 3))
group("W5, tidy: two dozen tones of all four commands in mixed order, floats at random, among maps")
dice = random.Random(9)
commands = [silence(word, dice.getrandbits(32)) for word in (7, 0, 3)]
for number in dice.sample(range(256), 24):
    kind = dice.choice((4, 5, 9, 9, 0x0a, 0x0a))
    if kind in (4, 5):
        commands.append(tone(kind, number, dice.randint(1, 65535), dice.randint(1, 65535), dice.randint(0, 7), dice.getrandbits(40)))
    else:
        gain, ratio = dice.randint(0x20000000, 0x7f7fffff), dice.randint(1, 0x4b000000)
        floats = (ratio,) if kind == 0x0a else (dice.randint(SMALLEST, gain), gain)
        commands.append(reading(number, *floats, cap=dice.randint(0, 15), mask=dice.getrandbits(40)))
dice.shuffle(commands)
sheet = line(256, 39, *commands)
add(sheet, (256, 24, len(model.read(sheet).silenced)))
group("W5: 214 tones of 09, 4,082 bytes; 215, of 4,101; 4,096 bytes of 210 and six of 0a; 256 of 0a, of 09")
LEVELS = "09 ++ 44==0000 3f80==00 0f " + WIDE
RATIO = "0a ++ 44==0000 0f " + WIDE
for body, answer in [("(%s)*214" % LEVELS, (256, 214, 0)), ("(%s)*215" % LEVELS, (256, 215, 0)),
                     ("(%s)*210 (%s)*6" % (LEVELS, RATIO), (256, 216, 0)), ("(%s)*256" % RATIO, (256, 256, 0)),
                     ("(%s)*256" % LEVELS, (256, 256, 0))]:
    add(wide(39, body), answer)
for n, m, length in [(214, 0, 4082), (215, 0, 4101), (210, 6, 4096)]:
    assert len(model.bytes_of(wide(39, "(%s)*%d (%s)*%d" % (LEVELS, n, RATIO, m)))) == length


def costs(gap_command, *described):
    """Most bits of a line whose tones are readings of one bit each: their powers are the costs, which stand after their floats."""
    sheet = size(len(described)) + gap_command + budget(TOP)
    sheet += b"".join(reading(n, *floats, cap=1, mask=TOP) for n, (*floats, _) in enumerate(described)) + END
    assert all(cost is None or model.loading_of(sheet).cost(n) == cost for n, (*_, cost) in enumerate(described)), spelled(sheet)
    most(sheet, [1] * len(described))


group("W5: cost of a ratio at gap 256: whole numbers, their neighbours, all below 1; at 257; at 65,535, at and above 256 / 65,535")
costs(gap(), (ONE, 1), (ONE + 1, 2), (ONE - 1, 1), (float_of(0.5), 1), (SMALLEST, 1), (LAST_SUBNORMAL, 1), (NORMAL, 1), (THREE, 3),
      (THREE - 1, 3), (THREE + 1, 4), (float_of(3.5), 4), (float_of(8388607.5), 8388608), (float_of(8388608), 8388608),
      (float_of(16776704), 16776704), (float_of(16776705), 16776705))
whole = float_of(256)
costs(gap(257), (ONE, 2), (ONE - 1, 2), (whole, 257), (whole + 1, 258), (whole - 1, 257), (SMALLEST, 1), (float_of(0.5), 1))
above = model.nearest(Fraction(256, 65535)) + 1
assert model.exact(above - 1) < Fraction(256, 65535) < model.exact(above)
costs(gap(65535), (above - 1, 1), (above, 2), (SMALLEST, 1), (NORMAL, 1), (ONE, 256), (float_of(256), 65535), (float_of(65535), 16776705))
group("W5: the largest ratio that a gap allows, and the next float, 13; 0a, and 09 of gain 1; 256, 257, 300, 65,535, 08 of 1, 100, 240")
for gap_command, g in [(gap(256), 256), (gap(257), 257), (gap(300), 300), (gap(65535), 65535), (tenths(1), 262), (tenths(100), 2560),
                       (tenths(240), 64305)]:
    # The floats from 2^23 to 2^24 are whole; below them the unit is half as large for each power of two.
    most_allowed, unit = Fraction(16776705 * 256, g), Fraction(1)
    while most_allowed / unit < 2**23:
        unit /= 2
    last = float_of(most_allowed // unit * unit)
    cost = -(-g * model.exact(last) // 256)
    assert 16776703 < cost <= 16776705 and g * model.exact(last + 1) > 16776705 * 256
    costs(gap_command, (last, cost), (last, ONE, cost))
    start = size(1) + gap_command + budget()
    add(start + reading(0, last + 1) + END, (13, len(start) + 2))
    add(start + reading(0, last + 1, ONE) + END, (13, len(start) + 2))
group("W5: the quotient is rounded before the cost is: 16,776,705 1/3 is accepted, 16,776,705 3/5 is 13, 3 and a little costs 3")
assert Fraction(50330116, 3) == 16776705 + Fraction(1, 3) and Fraction(83883528, 5) == 16776705 + Fraction(3, 5)
assert 3 < model.exact(0x40400002) / model.exact(0x3f800001) < 3 + Fraction(1, 2**23)
costs(gap(), (float_of(50330116), THREE, 16776705), (0x40400002, 0x3f800001, 3), (THREE + 1, ONE, 4), (THREE, ONE, 3))
add(head() + reading(1, float_of(83883528), float_of(5)) + END, (13, 17))
group("W5: a third, and others that are rounded up: three thirds cost 2 as floats, and 1 as whole numbers")
for g, noise, gain in [(768, 1, 3), (384, 2, 3), (1792, 1, 7)]:
    ratio = model.nearest(Fraction(noise, gain))
    assert g * noise == 256 * gain and model.exact(ratio) > Fraction(noise, gain)
    costs(gap(g), (float_of(noise), float_of(gain), 2), (ratio, 2), (ratio - 1, 1))
    sheet = size(1) + gap(g) + budget(TOP) + pair(0, noise, gain, 1, TOP) + END
    assert model.loading_of(sheet).power(0, 1) == 1
    most(sheet, [1])
group("W5: quotients of subnormals, to subnormals, to zero, and halfway between two of them")
costs(gap(), (SMALLEST, SMALLEST, 1), (3, SMALLEST, 3), (LAST_SUBNORMAL, SMALLEST, 8388607), (NORMAL, SMALLEST, 8388608), (7, 2, 4),
      (LAST_SUBNORMAL, LAST_SUBNORMAL, 1), (NORMAL, LAST_SUBNORMAL, 2), (LAST_SUBNORMAL, NORMAL, 1), (GREATEST, GREATEST, 1),
      (GREATEST, GREATEST - 1, 2), (GREATEST, 0x7f000000, 2), (SMALLEST, GREATEST, 1), (SMALLEST, TWO, 1), (3, TWO, 1), (5, TWO, 1),
      (SMALLEST, ONE + 1, 1), (NORMAL, TWO, 1), (NORMAL + 1, TWO, 1), (LAST_SUBNORMAL, TWO, 1), (0x33800000, 0x7f000000, 1))
group("W5: random quotients from 2^20 on, where a last bit changes the cost, at gap 256; smaller ones at 40,000; ratios at 1,000")


def quotients(low, high):
    """Random floats, noise and gain, with a quotient between these."""
    while True:
        noise = dice.randint(SMALLEST, GREATEST)
        # Floats half as large have bits that are 2^23 less, as whole numbers.
        gain = noise - dice.randint(low.bit_length() - 1, high.bit_length()) * 2**23 + dice.randint(-2**22, 2**22)
        if 0 < gain <= GREATEST and low <= model.exact(noise) / model.exact(gain) <= high:
            return noise, gain


costs(gap(), *((*quotients(2**20, 16776000), None) for _ in range(24)))
costs(gap(40000), *((*quotients(2**9, 100000), None) for _ in range(8)))
costs(gap(1000), *((dice.randint(float_of(0.25), float_of(4000000)), None) for _ in range(12)))


def as_readings(sheet, ratios):
    """A sheet with each of its pair tones as a reading of the same numbers: 0A of their ratio, or 09 of both."""
    described = model.read(sheet)
    for number, (command, *numbers) in described.tones.items():
        if command == 4:
            noise, gain, cap, mask = numbers
            levels = (0x0a, float_of(Fraction(noise, gain))) if ratios else (0x09, float_of(noise), float_of(gain))
            described.tones[number] = (*levels, cap, mask)
    return model.tidy_form(described)


group("W5: the sample line with its pairs as 09, and as 0a: document 01's cases")
for ratios in (False, True):
    for b, bits in [(39, [3, 2, 1]), (38, [2, 2, 1]), (171, [5, 2, 3])]:
        most(as_readings(sample(b), ratios), bits)
    target(6, as_readings(sample(39), ratios), [3, 2, 1])
    target(6, as_readings(sample(38), ratios), (11, 0))
    refit([0, 2, 3], as_readings(sample(39), ratios), ([3, 2, 1], 3))
    step([0, 2, 3], as_readings(sample(39), ratios), ([1, 2, 2], 1))
    refit([5, 3, 3], as_readings(sample(39), ratios), (10, 1))
    limited(as_readings(sample(39), ratios), "5:mask 2:cap 3:mask")
group("W5: whole numbers, 09 and 0a alike: most bits, a re-fit and limits at gap 300, most bits at 08 of 100; one single, one silenced")
four = pair(0, 3, 1, 15, 1000), single(1, 1, 1, 7, 1000), pair(2, 7, 2, 15, 90), pair(3), silence(0, 8)
in_256ths, in_decibels = size(4) + gap(300) + budget(200) + b"".join(four) + END, in_tenths(100, line(4, 1000, *four))
for written in (in_256ths, as_readings(in_256ths, False), as_readings(in_256ths, True)):
    most(written, [4, 2, 4, 0])
    refit([0, 4, 1, 0], written, ([4, 2, 4, 0], 8))
    limited(written, "7:mask 4:mask 4:mask 0:silent")
for written in (in_decibels, as_readings(in_decibels, False), as_readings(in_decibels, True)):
    most(written, [4, 2, 1, 0])
group("W5: ties of 04, 09 and 0a of cost 3 go to the lower tone, whichever it is, at 6 and 15; an exchange to it")
for order in ((4, 9, 10), (10, 4, 9), (9, 10, 4)):
    commands = [pair(n, 3, 1, 15, 1000) if command == 4 else reading(n, *(THREE, ONE)[:11 - command], cap=15, mask=1000)
                for n, command in enumerate(order)]
    most(line(3, 6, *commands), [1, 1, 0])
    most(line(3, 15, *reversed(commands)), [2, 1, 1])
refit([0, 0, 2], line(3, 6, *commands), ([1, 1, 0], 2))
readings = [reading(0, THREE, ONE, cap=15), reading(1, float_of(5), cap=2), single(2, 1, 1, 7)]
group("W5: silenced readings: before and after their commands; one bit on one is 10; all")
for commands in ((silence(0, 2), *readings), (*readings, silence(0, 2))):
    most(line(3, 171, *commands), [5, 0, 3])
    limited(line(3, 171, *commands), "5:mask 0:silent 3:mask")
refit([0, 1, 0], line(3, 171, *readings, silence(0, 2)), (10, 1))
most(line(3, TOP, silence(0, 7), *readings), [0, 0, 0])
target(1, line(3, TOP, silence(0, 7), *readings), (11, 0))
group("W5: 12 and 13 before all, in every call")
for sheet, answer in [(line(3, 39, reading(0, ONE, NAN)), (12, 21)), (line(3, 39, reading(2, ONE), reading(0, DEAR)), (13, 32))]:
    most(sheet, answer)
    target(LARGEST, sheet, answer)
    refit([255], sheet, answer)
    step([], sheet, answer)
    limited(sheet, answer)
group("W5: masks one below and at the power of each number of bits at the largest cost, 09 and 0a by turns; caps 0, 1, 15")
tones, answers = [], []
for b in range(1, 16):
    floats = (float_of(65535), ONE) if b % 2 == 0 else (float_of(65535),)
    for mask, limit in [(16776705 * (2**b - 1) - 1, b - 1), (16776705 * (2**b - 1), b)]:
        tones.append(reading(len(tones), *floats, cap=15, mask=mask))
        answers.append("%d:%s" % (limit, "cap" if limit == 15 else "mask"))
for cap in (0, 1, 15):
    tones.append(reading(len(tones), float_of(65535), cap=cap, mask=TOP))
    answers.append("%d:cap" % cap)
limited(size(len(tones)) + gap(65535) + budget(TOP) + b"".join(tones) + END, " ".join(answers))
group("W5: 214 tones of 09: most bits at 2^47 and 3,000,000, a target, a re-fit from the full table, limits; 256 of 0a: the same")
for tones, body in [(214, "(%s)*214" % LEVELS), (256, "(%s)*256" % RATIO)]:
    most(wide(TOP, body), [15] * tones + [0] * (256 - tones))
    bits = most(wide(3000000, body))
    target(sum(bits), wide(3000000, body), bits)
    refit([15] * tones + [0] * (256 - tones), wide(3000000, body), (bits, 15 * tones - sum(bits)))
    limited(wide(3000000, body), " ".join(["15:cap"] * tones + ["0:silent"] * (256 - tones)))
group("W5: 256 tones of 0a of the largest cost: at the full table's power and one below; of 04, 05 and 0a by turns at 3,000,000")
LARGEST_COST_RATIOS = "(0a ++ 477fff00 0f %s)*256" % WIDE
most(wide(256 * 32767 * 16776705, LARGEST_COST_RATIOS, 65535), [15] * 256)
most(wide(256 * 32767 * 16776705 - 1, LARGEST_COST_RATIOS, 65535), [15] * 255 + [14])
most(wide(3000000, "(04 ++ 01== 0020 0f %s 05 ++ 01== 000a 07 %s 0a ++ 41==0000 0f %s)*85" % (WIDE, WIDE, WIDE)))

# The sample line with a rest of 2 on tone 0 and of 1 on tone 1, by hand. Powers of no bits, one, two, ..: 2, 3, 9, 21, 45, 93 on tone 0;
# 1, 5, 15 on tone 1; 0, 3, 15, 63 on tone 2. No bits send 3. The steps in their order, and the total once each is taken:
#   step   1  3  4  6 10 12 12 24  48  48
#   tone   0  2  1  0  1  0  2  0   0   2
#   total  4  7 11 17 27 39 51 75 123 171
rested = model.rested
assert ends(rested(3)) == [4, 7, 11, 17, 27, 39, 51, 75, 123, 171]

group("W6: most bits of the sample line with a rest of 2 on tone 0 and 1 on tone 1: 16 at 0, 1, 2; no bits at 3; then to 171 and 2^47")
for b in (0, 1, 2):
    most(rested(b), (16, 0))
for b, bits, powers in [
        (3, [0, 0, 0], [2, 1, 0]), (4, [1, 0, 0], [3, 1, 0]), (6, [1, 0, 0], [3, 1, 0]), (7, [1, 0, 1], [3, 1, 3]),
        (10, [1, 0, 1], [3, 1, 3]), (11, [1, 1, 1], [3, 5, 3]), (17, [2, 1, 1], [9, 5, 3]), (38, [2, 2, 1], [9, 15, 3]),
        (39, [3, 2, 1], [21, 15, 3]), (51, [3, 2, 2], [21, 15, 15]), (170, [5, 2, 2], [93, 15, 15]), (171, [5, 2, 3], [93, 15, 63]),
        (TOP, [5, 2, 3], [93, 15, 63])]:
    most(rested(b), bits, powers)
group("W6: its targets: 0 at 3, 39, 2^47, 16 at 2; 1 at 3 and 4; 3 at 10 and 11; 6 at 38 and 39; 10 at 171; 11; 2^32 - 1")
for b in (3, 39, TOP):
    target(0, rested(b), [0, 0, 0], [2, 1, 0])
target(0, rested(2), (16, 0))
target(1, rested(3), (11, 0))
target(1, rested(4), [1, 0, 0], [3, 1, 0])
target(3, rested(10), (11, 0))
target(3, rested(11), [1, 1, 1], [3, 5, 3])
target(6, rested(38), (11, 0))
target(6, rested(39), [3, 2, 1], [21, 15, 3])
target(10, rested(171), [5, 2, 3], [93, 15, 63])
target(11, rested(TOP), (11, 0))
target(LARGEST, rested(3), (11, 0))
# From 0, 2, 3, which sends 80: h is tone 2's 48 and f tone 0's 1, exchange; h tone 2's 12 and f tone 0's 6, exchange; at 39, h is tone
# 1's 10 and f tone 0's 12, which fits 27; then h is tone 0's 12, f tone 2's 12, which does not fit 39.
group("W6: its re-fit from 0, 2, 3 at 39: three moves; its steps, and a fourth that is finished")
refit([0, 2, 3], rested(39), ([3, 2, 1], 3), [21, 15, 3])
for start, end, powers in [([0, 2, 3], ([1, 2, 2], 1), [3, 15, 15]), ([1, 2, 2], ([2, 2, 1], 1), [9, 15, 3]),
                           ([2, 2, 1], ([3, 2, 1], 1), [21, 15, 3]), ([3, 2, 1], ([3, 2, 1], 0), [21, 15, 3])]:
    step(start, rested(39), end, powers)
# From 2, 2, 1 on, at 3, the held steps 10, 6, 4, 3 and 1 are given up.
group("W6: at 3 from 0, 2, 3, seven moves; from the full table; from no bits, at 3 and at 4")
refit([0, 2, 3], rested(3), ([0, 0, 0], 7), [2, 1, 0])
refit([5, 2, 3], rested(3), ([0, 0, 0], 10), [2, 1, 0])
for b, end, powers in [(3, ([0, 0, 0], 0), [2, 1, 0]), (4, ([1, 0, 0], 1), [3, 1, 0])]:
    refit([0, 0, 0], rested(b), end, powers)
    step([0, 0, 0], rested(b), end, powers)
group("W6: above the budget by the rest of a tone at no bits: 1, 0, 0 at 3; exchanges for a first step: from 0, 0, 1; 0, 1, 0; 0, 2, 0")
step([1, 0, 0], rested(3), ([0, 0, 0], 1), [2, 1, 0])
step([0, 0, 1], rested(3), ([1, 0, 0], 1), [3, 1, 0])
refit([0, 0, 1], rested(3), ([0, 0, 0], 2), [2, 1, 0])
refit([0, 0, 1], rested(6), ([1, 0, 0], 1), [3, 1, 0])
step([0, 1, 0], rested(5), ([1, 0, 0], 1), [3, 1, 0])
step([0, 2, 0], rested(39), ([1, 1, 0], 1), [3, 5, 0])
group("W6: its limits are those of the sample line; 16 at 2; a start above them is 10, after 9")
limited(rested(3), "5:mask 2:cap 3:mask")
limited(rested(2), (16, 0))
refit([5, 3, 4], rested(3), (10, 1))
refit([5, 3], rested(3), (9, 0))
group("W6: one rest of 0 or both: the sample line's own table of no bits at 2; at 3 and 4")
for rests, b, bits, powers in [((0, 0), 2, [0, 0, 0], [0, 0, 0]), ((0, 0), 3, [1, 0, 0], [3, 0, 0]), ((0, 1), 2, [0, 0, 0], [0, 1, 0]),
                               ((0, 1), 4, [1, 0, 0], [3, 1, 0]), ((2, 0), 2, [0, 0, 0], [2, 0, 0]), ((2, 0), 3, [1, 0, 0], [3, 0, 0])]:
    most(rested(b, *rests), bits, powers)

# The first step of the second tone is 5, 4, 3 by its rest, that of the first 4.
group("W6: the order of steps: pairs of costs 4 and 5 at 5, the second with a rest of 0, 1, 2; the same tones in the other order")
for power, bits, powers in [(0, [1, 0], [4, 0]), (1, [1, 0], [4, 1]), (2, [0, 1], [0, 5])]:
    most(line(2, 5, pair(0, 4), pair(1, 5), at_rest(1, power)), bits, powers)
for power, bits, powers in [(0, [0, 1], [0, 4]), (1, [1, 0], [5, 0]), (2, [1, 0], [5, 0])]:
    most(line(2, 5, pair(0, 5), pair(1, 4), at_rest(0, power)), bits, powers)
refit([0, 1], line(2, 5, pair(0, 5), pair(1, 4), at_rest(0, 1)), ([1, 0], 1), [5, 0])
refit([1, 0], line(2, 5, pair(0, 4), pair(1, 5), at_rest(1, 1)), ([1, 0], 0), [4, 1])
refit([1, 0], line(2, 5, pair(0, 4), pair(1, 5), at_rest(1, 2)), ([0, 1], 1), [0, 5])
# Powers 0, 10, 30 and 8, 12, 36: with the rests, a bit on the second tone sends 12 in all, on the first 18.
group("W6: best with rests counted: a pair of cost 10, and one of cost 12 with a rest of 8, at 8, 11, 12, 18, 21, 22; target 1; re-fit")
uneven = [pair(0, 10), pair(1, 12), at_rest(1, 8)]
for b, bits, powers in [(8, [0, 0], [0, 8]), (11, [0, 0], [0, 8]), (12, [0, 1], [0, 12]), (18, [0, 1], [0, 12]), (21, [0, 1], [0, 12]),
                        (22, [1, 1], [10, 12])]:
    most(line(2, b, *uneven), bits, powers)
target(1, line(2, 18, *uneven), [0, 1], [0, 12])
refit([1, 0], line(2, 18, *uneven), ([0, 1], 1), [0, 12])
step([1, 0], line(2, 17, *uneven), ([0, 1], 1), [0, 12])
group("W6: a rest one below the cost 100: the first step is 1 on a pair, 201 on a single; 98 is 16")
for kind, first in [(4, 100), (5, 300)]:
    resting = tone(kind, 0, 100, 1, 1, 1000) + at_rest(0, 99)
    for b, bits, powers in [(98, (16, 0), None), (99, [0], [99]), (first - 1, [0], [99]), (first, [1], [first])]:
        most(line(1, b, resting), bits, powers)
    refit([1], line(1, first - 1, resting), ([0], 1), [99])
group("W6: a rest on a tone with limit 0, by its mask or its cap: sent all the same; the rest at the mask, the mask at the cost")
for cap, mask, limit in [(5, 4, "0:mask"), (0, 100, "0:cap"), (0, 4, "0:cap"), (5, 5, "1:mask")]:
    resting = pair(0, 5, 1, cap, mask) + at_rest(0, 4)
    limited(line(1, 4, resting), limit)
    most(line(1, 3, resting), (16, 0))
    most(line(1, 4, resting), [0], [4])
    most(line(1, TOP, resting), *(([1], [5]) if limit[0] == "1" else ([0], [4])))
refit([1], line(1, TOP, pair(0, 5, 1, 5, 4), at_rest(0, 4)), (10, 0))
# Tone 0 silenced: no bits send 1, and the first steps are 3 on tone 2 and 4 on tone 1.
group("W6: a silenced tone sends nothing, silenced first, before its 0b, last: at 0, 1, 3, 4, 8; a target, a re-fit, 10, limits")
cold = [described[0], at_rest(0, 2), described[1], at_rest(1, 1), described[2]]
for at in (0, 1, 5):
    commands = cold[:at] + [silence(0, 1)] + cold[at:]
    most(line(3, 0, *commands), (16, 0))
    for b, bits, powers in [(1, [0, 0, 0], [0, 1, 0]), (3, [0, 0, 0], [0, 1, 0]), (4, [0, 0, 1], [0, 1, 3]), (8, [0, 1, 1], [0, 5, 3])]:
        most(line(3, b, *commands), bits, powers)
    target(0, line(3, 1, *commands), [0, 0, 0], [0, 1, 0])
    refit([0, 2, 3], line(3, 8, *commands), ([0, 1, 1], 3), [0, 5, 3])
    refit([1, 0, 0], line(3, 8, *commands), (10, 0))
    limited(line(3, 1, *commands), "0:silent 2:cap 3:mask")
group("W6: all silenced, at 0; a tone not described beside them; two of three silenced by maps that join")
most(line(3, 0, *cold, silence(0, 7)), [0, 0, 0], [0, 0, 0])
target(0, line(4, 0, silence(0, 3), *cold), [0, 0, 0, 0], [0, 0, 0, 0])
most(line(4, 3, *cold), [0, 0, 0, 0], [2, 1, 0, 0])
step([0, 0, 1], line(3, 3, silence(0, 2), *cold, silence(0, 1)), ([0, 0, 1], 0), [0, 0, 3])

group("W6, 15: rests 0, 1, 2 at cost 3; 3 and more, to 2^32 - 1; by each command of a tone; a single's first bit is not its cost")
for command in (pair(1), single(1), reading(1, THREE, ONE), reading(1, THREE)):
    at = 15 + len(command) + 2
    for power in (0, 1, 2):
        add(head() + command + at_rest(1, power) + END, (3, 1, 0))
    for power in (3, 8, 9, 256, 0x01000000, FULL):
        add(head() + command + at_rest(1, power) + END, (15, at))
group("W6, 15: the cost rounded up, at the line's gap: one below it, and at it; 256, 257, 08 of 100, 7 / 2, 2.5, thirds, tiny, the largest")
for gap_command, command, cost in [
        (gap(), pair(1, 1), 1), (gap(257), pair(1, 1), 2), (gap(257), single(1, 1), 2), (tenths(100), pair(1, 1), 10),
        (gap(), pair(1, 7, 2), 4), (gap(), single(1, 7, 2), 4), (gap(), reading(1, float_of(2.5)), 3),
        (tenths(100), reading(1, float_of(2.5), ONE), 25), (gap(768), pair(1, 1, 3), 1), (gap(768), reading(1, ONE, THREE), 2),
        (gap(768), reading(1, 0x3eaaaaab), 2), (gap(65535), reading(1, SMALLEST), 1), (gap(65535), pair(1, 65535, 1, 15, TOP), 16776705),
        (gap(65535), single(1, 65535, 1, 7, TOP), 16776705), (gap(65535), reading(1, float_of(65535), cap=15, mask=TOP), 16776705)]:
    start = size() + gap_command + budget(TOP) + command
    add(start + at_rest(1, cost - 1) + END, (3, 1, 0), start + (at_rest(1, cost - 1) if cost > 1 else b"") + END)
    add(start + at_rest(1, cost) + END, (15, len(start) + 2))
group("W6, 15: a mask one above the rest 2, equal to it, one below; by each command; mask 0; a rest under the mask and over the cost")
for mask, answer in [(3, (3, 1, 0)), (2, (3, 1, 0)), (1, (15, None)), (0, (15, None))]:
    for command in (pair(1, mask=mask), single(1, mask=mask), reading(1, THREE, ONE, mask=mask), reading(1, THREE, mask=mask)):
        add(head() + command + at_rest(1, 2) + END, answer if answer[1] else (15, 15 + len(command) + 2))
add(head() + pair(1, mask=0) + at_rest(1, 0) + END, (3, 1, 0))
add(head() + pair(1, mask=0) + at_rest(1, 1) + END, (15, 32))
add(head() + pair(1, 50, mask=19) + at_rest(1, 20) + END, (15, 32))
add(head() + pair(1, 20, mask=50) + at_rest(1, 20) + END, (15, 32))
group("W6, 15 of a silenced tone, silenced first, before its 0b, after it: at the cost, over the mask; below both it is read")
for before, between, after, at in [(silence(0, 2), b"", b"", 38), (b"", silence(0, 2), b"", 38), (b"", b"", silence(0, 2), 32)]:
    for power, mask, answer in [(3, 100, (15, at)), (FULL, TOP, (15, at)), (2, 1, (15, at)), (2, 2, (3, 1, 1))]:
        add(head() + before + pair(1, mask=mask) + between + at_rest(1, power) + after + END, answer)

group("W6, 14: not described: alone, beside others, described later, silenced; the last of 256")
add(head() + at_rest(0, 0) + END, (14, 16))
add(head() + at_rest(1, 0) + pair(1) + END, (14, 16))
add(head() + pair(1) + at_rest(0, 1) + END, (14, 31))
add(head() + pair(1) + at_rest(2, 1) + single(2) + END, (14, 31))
add(head() + silence(0, 2) + at_rest(1, 0) + END, (14, 22))
add(head() + pair(0) + at_rest(0, 2) + at_rest(1, 2) + pair(1) + END, (14, 37))
add(head(256) + pair(0) + pair(254) + at_rest(255, 0) + END, (14, 46))
add(head(256) + pair(255) + at_rest(255, 2) + END, (256, 1, 0))
group("W6, 14: a second 0b, each of rest 0, 1, 2, the first as well; by each command; of a silenced tone")
for first in (0, 1, 2):
    for second in (0, 1, 2):
        add(head() + pair(1) + at_rest(1, first) + at_rest(1, second) + END, (14, 37))
for command in (single(1), reading(1, THREE, ONE), reading(1, THREE)):
    for first in (0, 2):
        add(head() + command + at_rest(1, first) + at_rest(1, 1) + END, (14, 15 + len(command) + 7))
for first in (0, 2):
    add(head() + silence(0, 2) + pair(1) + at_rest(1, first) + at_rest(1, 0) + END, (14, 43))
group("W6, 14: a second 0b after other commands, of tones round the ends of words, after those of all; a second of each of three")
add(head() + pair(1) + at_rest(1, 0) + single(0) + silence(0, 2) + at_rest(0, 1) + at_rest(1, 1) + END, (14, 64))
ends_of_words = (0, 31, 32, 63, 128, 255)
resting = head(256) + b"".join(pair(n) for n in ends_of_words) + b"".join(at_rest(n, n % 3) for n in ends_of_words)
add(resting + END, (256, 6, 0))
for number in ends_of_words:
    add(resting + at_rest(number, 1) + END, (14, 15 + 6 * 21 + 1))
add(head() + pair(0) + pair(1) + pair(2) + at_rest(2, 0) + at_rest(0, 0) + at_rest(1, 0) + at_rest(1, 0) + END, (14, 79))
group("W6: 5 before 14 and 15; 14 before 15; tone N - 1 and N; a tone with a 0b described again is 6")
for power in (0, 2, FULL):
    add(head() + pair(1) + at_rest(3, power) + END, (5, 31))
    add(head() + at_rest(255, power) + END, (5, 16))
    add(head() + pair(1) + at_rest(0, power) + END, (14, 31))
for n in (1, 3, 255):
    add(head(n) + pair(n - 1) + at_rest(n - 1, 2) + END, (n, 1, 0))
    add(head(n) + pair(n - 1) + at_rest(n, 2) + END, (5, 31))
for first in (0, 2):
    for second in (3, FULL):
        add(head() + pair(1) + at_rest(1, first) + at_rest(1, second) + END, (14, 37))
    for again in (pair(1), single(1), reading(1, THREE, ONE), reading(1, THREE)):
        add(head() + pair(1) + at_rest(1, first) + again + END, (6, 37))
group("W6: a 0b cut at each byte; cut (2) before its tone and its rest are judged")
whole = head() + pair(1) + at_rest(1, 2)
for n in range(30, 37):
    add(whole[:n], (2, n))
add(head() + pair(1) + at_rest(3, FULL)[:5], (2, 35))
add(head() + pair(1) + at_rest(1, FULL)[:2], (2, 32))
add(head() + pair(1) + at_rest(1, 2) + at_rest(1, 2)[:5], (2, 41))
add(head() + at_rest(1, 2)[:4], (2, 19))
group("W6: 0b first, in place of 02, of 03, after 08, after the end; not allowed (3) before cut (2)")
for command in (at_rest(0, 0), b"\x0b"):
    add(command + (head() + END if len(command) > 1 else b""), (3, 0))
    add(size() + command, (3, 3))
    add(size() + gap() + command, (3, 6))
    add(size() + tenths(100) + command, (3, 5))
    add(head() + pair(0) + END + command, (7, 31))
group("W6, two faults: the earlier command first")
add(head() + pair(1) + at_rest(1, 3) + pair(1) + END, (15, 32))
add(head() + pair(1) + pair(1) + at_rest(1, 3) + END, (6, 31))
add(head() + at_rest(1, 0) + pair(3) + END, (14, 16))
add(head() + pair(3) + at_rest(1, 0) + END, (5, 16))
add(head() + pair(1) + at_rest(1, 3) + at_rest(1, 3) + END, (15, 32))
add(head() + pair(1) + at_rest(1, 3) + END + END, (15, 32))
add(head() + pair(1) + at_rest(0, 3) + b"\xff", (14, 31))
add(head() + reading(1, 0) + at_rest(1, 3) + END, (12, 17))
add(head() + pair(1) + at_rest(1, 3) + reading(0, DEAR) + END, (15, 32))
group("W6: the places after 08 are one less: 5, 14, 15; the cost 30 at 08 of 100")
for command, answer in [(at_rest(3, 0), (5, 30)), (at_rest(0, 0), (14, 30)), (at_rest(1, 30), (15, 31)), (at_rest(1, 29), (3, 1, 0))]:
    add(in_tenths(100, head() + pair(1) + command + END), answer)

resting = [pair(2, 50), at_rest(2, 10), pair(0, 50), pair(1, 50), at_rest(0, 20), at_rest(1, 15)]
group("W6, 16: rests of 10, 20, 15 at 46, 45, 44, 0; one of 1 at 1 and 0; some of 0 at 0")
for b, answer in [(46, (3, 3, 0)), (45, (3, 3, 0)), (44, (16, 0)), (0, (16, 0))]:
    add(line(3, b, *resting), answer)
add(line(1, 1, pair(0), at_rest(0, 1)), (1, 1, 0))
add(line(1, 0, pair(0), at_rest(0, 1)), (16, 0))
add(line(2, 0, pair(0), at_rest(0, 0), single(1), at_rest(1, 0)), (2, 2, 0))
group("W6, 16: a silence saves it: of tone 0 at 25, not at 24, first, before its 0b, last; of tone 2 at 35; of all at 0; of others not")
for at, map_of, b in [(0, 1, 25), (4, 1, 25), (6, 1, 25), (1, 4, 35), (6, 4, 35)]:
    commands = resting[:at] + [silence(0, map_of)] + resting[at:]
    add(line(3, b, *commands), (3, 3, 1))
    add(line(3, b - 1, *commands), (16, 0))
add(line(3, 0, *resting, silence(0, 7)), (3, 3, 3))
add(line(3, 0, silence(0, 4), *resting, silence(0, 1), silence(0, 2)), (3, 3, 3))
add(line(3, 0, silence(0, 4), *resting, silence(0, 1)), (16, 0))
add(line(4, 44, *resting, silence(0, 8)), (16, 0))
add(line(256, 44, *resting, pair(255), silence(7, 1 << 31), silence(1, 7)), (16, 0))
over = head(3, 1) + pair(0) + at_rest(0, 2)
group("W6, 16 after all that the bytes are refused for: 1, 2, 3, 4, 5, 6, 7, 12, 13, 14, 15 behind rests over the budget")
for more, answer in [
        (TOO_LONG, (1, 0)), (b"", (2, 36)), (pair(1)[:9], (2, 45)), (b"\xff", (3, 36)), (pair(1, 0) + END, (4, 38)),
        (pair(3) + END, (5, 37)), (silence(0, 8) + END, (5, 38)), (pair(0) + END, (6, 37)), (END + END, (7, 37)), (END + b"\x00", (7, 37)),
        (reading(1, 0) + END, (12, 38)), (reading(1, DEAR) + END, (13, 38)), (at_rest(1, 0) + END, (14, 37)),
        (at_rest(0, 0) + END, (14, 37)), (pair(1) + at_rest(1, 3) + END, (15, 53)), (END, (16, 0))]:
    add(over + more, answer)
group("W6, 16 in every call, before 8, 9, 10 and 11")
for sheet in (over + END, rested(2)):
    # With no room too, as `short` shows of the calls that the test program makes on a refused sheet.
    assert [model.refused_call("most", None, sheet, 0), model.refused_limits(sheet, 0), model.refused_tidy(sheet, 0)] == [(16, 0)] * 3
    most(sheet, (16, 0))
    for bits in (0, LARGEST):
        target(bits, sheet, (16, 0))
    for start in ([], [255] * 3, [0] * 3):
        refit(start, sheet, (16, 0))
        step(start, sheet, (16, 0))
    limited(sheet, (16, 0))
group("W6: the same calls with a silence after the rest: 8 where it is short, 9, 10, 11, no bits, limits")
saved = over + silence(0, 1) + END
most(saved, [0, 0, 0], [0, 0, 0])
target(1, saved, (11, 0))
refit([255], saved, (9, 0))
refit([255] * 3, saved, (10, 0))
step([0] * 3, saved, ([0, 0, 0], 0), [0, 0, 0])
limited(saved, "0:silent 0:silent 0:silent")
group("W6: 14 and 15 before all, in every call")
for sheet, answer in [(over + at_rest(0, 0) + END, (14, 37)), (over + pair(1) + at_rest(1, 3) + END, (15, 53))]:
    most(sheet, answer)
    target(LARGEST, sheet, answer)
    refit([255], sheet, answer)
    step([], sheet, answer)
    limited(sheet, answer)

group("W6, tidy: each 0b straight after its tone: as it was; after all tones; tones falling; between others")
rests = [at_rest(0, 2), at_rest(1, 1)]
add(rested(39), (3, 3, 0), rested(39))
add(line(3, 39, *described, *rests), (3, 3, 0), rested(39))
add(line(3, 39, *reversed(described), *reversed(rests)), (3, 3, 0), rested(39))
add(line(3, 39, described[2], described[1], rests[1], described[0], rests[0]), (3, 3, 0), rested(39))
add(line(3, 39, described[0], described[1], rests[0], described[2], rests[1]), (3, 3, 0), rested(39))
group("W6, tidy: a rest of 0 is dropped, one or both, wherever it stands; a silenced tone's too")
add(rested(39, 0, 0), (3, 3, 0), model.SAMPLE)
add(rested(39, 0, 1), (3, 3, 0), line(3, 39, *described[:2], rests[1], described[2]))
add(rested(39, 2, 0), (3, 3, 0), line(3, 39, described[0], rests[0], *described[1:]))
add(line(3, 39, *described, at_rest(2, 0), at_rest(0, 0)), (3, 3, 0), model.SAMPLE)
add(line(3, 39, described[1], silence(0, 2), at_rest(1, 0)), (3, 1, 1), line(3, 39, described[1], silence(0, 2)))
group("W6, tidy: a silenced tone keeps its rest, silenced first, before its 0b, after it; at a budget of 0; maps behind all tones")
for at in range(6):
    add(line(3, 39, *cold[:at], silence(0, 3), *cold[at:]), (3, 3, 2), rested(39, after=silence(0, 3)))
add(line(3, 0, silence(0, 1), *cold, silence(0, 2)), (3, 3, 2), rested(0, after=silence(0, 3)))
add(line(40, 1, silence(1, 8), pair(35), at_rest(35, 2), NOTHING, single(3), at_rest(3, 1)), (40, 2, 1),
    line(40, 1, single(3), at_rest(3, 1), pair(35), at_rest(35, 2), silence(1, 8)))
group("W6, tidy: rests on tones of 09 and 0a, and of all four commands, falling; with 08")
four = [pair(0), reading(1, THREE, ONE), reading(2, THREE), single(3)]
behind = [at_rest(n, power) for n, power in enumerate((2, 1, 2, 1))]
alternate = [command for both in zip(four, behind) for command in both]
for start in (head(4), in_tenths(100, head(4))):
    add(start + b"".join(reversed(four)) + b"".join(behind) + END, (4, 4, 0), start + b"".join(alternate) + END)
    add(start + b"".join(reversed(four)) + at_rest(1, 0) + silence(0, 6) + behind[2] + END, (4, 4, 2),
        start + b"".join(four[:3]) + behind[2] + four[3] + silence(0, 6) + END)
group("W6, tidy: the bytes of a rest; the largest; on the last of 256")
dear = [tone(4 + n % 2, n, 65535, 1, 7, TOP) for n in range(5)]
bytewise = [at_rest(n, power) for n, power in enumerate((0x00010203, 0x00abcdef, 0x00ff0000, 0x000000ff, 0x00fffe00))]
start = size(5) + gap(65535) + budget(TOP)
add(start + b"".join(dear + bytewise) + END, (5, 5, 0), start + b"".join(c for both in zip(dear, bytewise) for c in both) + END)
sent = [66051, 11259375, 16711680, 255, 16776704]
most(at_budget(44814065, start + b"".join(dear + bytewise) + END), [0] * 5, sent)
most(at_budget(44814064, start + b"".join(dear + bytewise) + END), (16, 0))
add(line(256, 39, pair(255), pair(0), at_rest(255, 2), at_rest(0, 1)), (256, 2, 0),
    line(256, 39, pair(0), at_rest(0, 1), pair(255), at_rest(255, 2)))

group("W6: rests on pairs of 09, and of 0a: the sample line's cases")
for ratios in (False, True):
    for b, bits, powers in [(3, [0, 0, 0], [2, 1, 0]), (4, [1, 0, 0], [3, 1, 0]), (39, [3, 2, 1], [21, 15, 3])]:
        most(as_readings(rested(b), ratios), bits, powers)
    target(0, as_readings(rested(39), ratios), [0, 0, 0], [2, 1, 0])
    refit([0, 2, 3], as_readings(rested(39), ratios), ([3, 2, 1], 3), [21, 15, 3])
    refit([0, 2, 3], as_readings(rested(3), ratios), ([0, 0, 0], 7), [2, 1, 0])
    limited(as_readings(rested(39), ratios), "5:mask 2:cap 3:mask")
    most(at_budget(2, as_readings(rested(39), ratios)), (16, 0))

group("W6: 194 pairs of cost 2 with a rest of 1, 4,090 bytes, and 4,096 with a map; 195, of which one is silenced; rests of 0; 16 at 193")
RESTING = "04 ++ 0002 0001 0f %s 0b == 00*3 %%02x" % WIDE
for body, answer in [("(%s)*194" % RESTING % 1, (256, 194, 0)), ("(%s)*194 06 07 80 00*3" % RESTING % 1, (256, 194, 1)),
                     ("(%s)*195 06 06 00*3 01" % RESTING % 1, (256, 195, 1)), ("(%s)*194 06 07 00*4" % RESTING % 0, (256, 194, 0))]:
    add(wide(194, body), answer)
add(wide(193, "(%s)*194" % RESTING % 1), (16, 0))
add(wide(193, "(%s)*194 06 00 00*3 01" % RESTING % 1), (256, 194, 1))
assert len(model.bytes_of(wide(194, "(%s)*194" % RESTING % 1))) == 4090
group("W6: 256 tones and 40 rests behind them, 4,096 bytes; 163 of 09 with rests, 4,091; 194 of 0a; 1 more of each, above 4,096 bytes")
FORTY = "(04 ++ 0002 0001 0f %s)*256 (0b ++ 00*3 01)*40" % WIDE
LEVELS_RESTING, RATIO_RESTING = LEVELS + " 0b == 000001ff", RATIO + " 0b == 000001ff"
for body, length, answer in [
        (FORTY, 4096, (256, 256, 0)), (FORTY + " 0b ++ 00*3 01", 4102, (256, 256, 0)), ("(%s)*163" % LEVELS_RESTING, 4091, (256, 163, 0)),
        ("(%s)*164" % LEVELS_RESTING, 4116, (256, 164, 0)), ("(%s)*194" % RATIO_RESTING, 4090, (256, 194, 0)),
        ("(%s)*195" % RATIO_RESTING, 4111, (256, 195, 0))]:
    assert len(model.bytes_of(wide(TOP, body))) == length
    add(wide(TOP, body), answer)
# Of each pair no bits send 1, one bit 2, two 6: 194 steps of 1, then those of 4 from 388 on.
group("W6: 194 pairs of cost 2 with a rest of 1: at 193, 194, 195, 387, 388, 391, 392, 2^47; targets 0, 194, 195; re-fits, steps; limits")
resting = "(%s)*194" % RESTING % 1
not_described = [0] * 62
for b, bits, powers in [(194, [0] * 194, [1] * 194), (195, [1] + [0] * 193, [2] + [1] * 193), (387, [1] * 193 + [0], [2] * 193 + [1]),
                        (388, [1] * 194, [2] * 194), (391, [1] * 194, [2] * 194), (392, [2] + [1] * 193, [6] + [2] * 193),
                        (TOP, [15] * 194, [65534] * 194)]:
    most(wide(b, resting), bits + not_described, powers + not_described)
most(wide(193, resting), (16, 0))
target(0, wide(388, resting), [0] * 256, [1] * 194 + not_described)
target(194, wide(388, resting), [1] * 194 + not_described, [2] * 194 + not_described)
target(195, wide(388, resting), (11, 0))
refit([15] * 194 + not_described, wide(194, resting), ([0] * 256, 194 * 15), [1] * 194 + not_described)
refit([0] * 97 + [2] * 97 + not_described, wide(388, resting), ([1] * 194 + not_described, 97), [2] * 194 + not_described)
step([0] * 193 + [1] + not_described, wide(195, resting), ([1] + [0] * 255, 1), [2] + [1] * 193 + not_described)
step([1] + [0] * 255, wide(194, resting), ([0] * 256, 1), [1] * 194 + not_described)
limited(wide(194, resting), " ".join(["15:cap"] * 194 + ["0:silent"] * 62))
group("W6: 194 of the largest cost with the largest rest, 16,776,704: at their sum, one below, one above, the first bit of each; 0a too")
for body in ("04 ++ ffff 0001 0f", "0a ++ 477fff00 0f"):
    resting, least = "(%s %s 0b == 00fffe00)*194" % (body, WIDE), 194 * 16776704
    for b, bits in [(least - 1, (16, 0)), (least, [0] * 256), (least + 1, [1] + [0] * 255), (least + 194, [1] * 194 + not_described)]:
        most(wide(b, resting, 65535), bits)
    target(0, wide(least, resting, 65535), [0] * 256, [16776704] * 194 + not_described)
    refit([1] * 194 + not_described, wide(least + 100, resting, 65535), ([1] * 100 + [0] * 156, 94))
# A cost of (256 + n) / 32 is 8 or more, one of (256 + n) / 10 is 26 or more. Rests add up to 97 × 31.
group("W6: 194 tones, pairs with a rest of 7 and singles with one of 24 by turns: at 3,007, 3,006, 5,000, 300,000, 2^47; targets; re-fits")
resting = "(04 ++ 01== 0020 0f %s 0b == 00*3 07 05 ++ 01== 000a 07 %s 0b == 00*3 18)*97" % (WIDE, WIDE)
most(wide(3006, resting), (16, 0))
most(wide(3007, resting), [0] * 256, [7, 24] * 97 + not_described)
for b in (5000, 300000, TOP):
    bits = most(wide(b, resting))
    refit("(0f 07)*97 00*62", wide(b, resting), (bits, 97 * 22 - sum(bits)))
    target(sum(bits), wide(b, resting), bits)
    target(sum(bits) + 1, wide(b, resting), (11, 0))
refit("(00 03)*97 00*62", wide(300000, resting))
step("(00 03)*97 00*62", wide(300000, resting))
group("W6: 256 pairs of cost 2, a rest of 1 on the first 40: at 40, 80, 82, 1,000,000; a re-fit of it, a target")
for b, bits, powers in [(40, [0] * 256, [1] * 40 + [0] * 216), (80, [1] * 40 + [0] * 216, [2] * 40 + [0] * 216),
                        (82, [1] * 41 + [0] * 215, [2] * 41 + [0] * 215)]:
    most(wide(b, FORTY), bits, powers)
most(wide(39, FORTY), (16, 0))
bits = most(wide(1000000, FORTY))
refit([15] * 256, wide(1000000, FORTY), (bits, 3840 - sum(bits)))
target(1000, wide(1000000, FORTY))

dice = random.Random(11)


def with_rests(n, b, largest=9, among=None):
    """A line of up to n tones, or of some among these, of all four commands, with rests behind some of them and a silence now and
    then, at what the rests and b allow; rests of 0 and of all but the cost among them."""
    commands, least, among = [], 0, among or range(n)
    for number in dice.sample(among, dice.randint(1, len(among))):
        kind, noise, gain = dice.choice((4, 4, 5, 9, 0x0a)), dice.randint(1, largest), dice.choice((1, 2, 4))
        levels = {"cap": dice.randint(0, 7), "mask": dice.randint(0, 20 * largest)}
        floats = {9: (float_of(noise), float_of(gain)), 0x0a: (float_of(Fraction(noise, gain)),)}
        commands.append(reading(number, *floats[kind], **levels) if kind in floats else tone(kind, number, noise, gain, **levels))
        most_allowed = min(-(-noise // gain) - 1, levels["mask"])
        if dice.randint(0, 3) > 0:
            power = dice.choice((0, most_allowed, dice.randint(0, most_allowed)))
            commands.append(at_rest(number, power))
            least += power
    # Each 0B may move back, over commands of other tones.
    for i in range(len(commands) - 1, -1, -1):
        if commands[i][0] in (0x0b, 0x1b):
            command = commands.pop(i)
            commands.insert(dice.randint(i, len(commands)), command)
    if dice.randint(0, 1) == 0:
        word = dice.randint(0, (n - 1) // 32)
        bits = dice.getrandbits(min(32, n - 32 * word)) & dice.getrandbits(32)
        commands.insert(dice.randint(0, len(commands)), silence(word, bits))
    return line(n, least + b, *commands)


group("W6: a dozen lines of up to six tones with rests: check and tidy, most bits, re-fit, step, target, limits")
for _ in range(12):
    sheet = with_rests(dice.randint(1, 6), dice.choice((0, dice.randint(0, 9), dice.randint(0, 200))))
    limits = model.loading_of(sheet).limits
    start = [dice.randint(0, limit) for limit in limits]
    add(sheet, model.check(sheet))
    bits, _ = refit(start, sheet)
    most(sheet, bits)
    step(start, sheet)
    target(max(0, sum(bits) - dice.randint(-1, 3)), sheet)
    limited(sheet)
group("W6: lines of 40 and 70 tones with rests: check and tidy, most bits, re-fit")
for n in (40, 70):
    sheet = with_rests(n, 5000, 500)
    add(sheet, model.check(sheet))
    most(sheet)
    refit([dice.randint(0, limit) for limit in model.loading_of(sheet).limits], sheet)
group("W6: four dozen lines of up to four tones at a smaller budget, or with a 0b of any tone and rest behind: mostly refused")
for _ in range(24):
    n = dice.randint(1, 4)
    sheet = with_rests(n, 0)
    add(sheet[:-1] + at_rest(dice.randint(0, n), dice.choice((0, 1, 2, 5, FULL))) + END, None)
    add(at_budget(max(0, model.number(sheet[7:15]) - dice.randint(0, 3)), sheet), None)

# Many budgets. `short` below each is the same call with one byte too few: it shows 4 of the list, and 16, before 8.


def reached(b, totals):
    """Bits and power at a budget, of a line whose adding run passes through these totals, the first of them at no bits."""
    bits = sum(total <= b for total in totals) - 1
    return bits, totals[bits]


def along(entries, totals, sheet):
    """A list of budgets on such a line."""
    listed = model.entries_of(model.bytes_of(entries)) if isinstance(entries, str) else entries
    budgets(entries, sheet, [reached(b, totals) for b in listed])


def about(totals):
    """Each total, and one below each but the first."""
    return sorted({*totals, *(total - 1 for total in totals[1:])})


bare = [0, *ends(sample(0))]
assert bare == [0, 3, 6, 11, 17, 27, 39, 51, 75, 123, 171]
group("W7: one budget on the sample line: 39, 38, 0, 2^47, whatever the sheet's own")
for b, own in [(39, 39), (39, 0), (39, TOP), (38, 39), (0, 171), (TOP, 0)]:
    along([b], bare, sample(own))
group("W7: document 01's budgets in one list; two, three")
budgets([2, 3, 38, 39, 50, 51, 170, 171], sample(39), [(0, 0), (1, 3), (5, 27), (6, 39), (6, 39), (7, 51), (9, 123), (10, 171)])
for entries in ([38, 39], [0, TOP], [2, 3, 6]):
    along(entries, bare, sample(50))
group("W7: equal neighbours: both of two, the first, the last, all of three, at no bits, at 2^47")
for entries in ([39, 39], [39, 39, 51], [38, 39, 39], [51, 51, 51], [0, 0, 3], [171, TOP, TOP]):
    along(entries, bare, sample(39))
group("W7: each total of the sample line's run, and one below; 32 budgets: from 0 to 31, all 39, all 0")
along(about(bare) + [TOP], bare, sample(0))
for entries in ("(00*7 ++)*32", "(00*7 27)*32", "00*256"):
    along(entries, bare, sample(39))

small, of_small = line(1, 39, pair(0)), [0, 3, 9, 21, 45, 93]
group("W7, 4: a list of no bytes, 7, 9, 15, 257, of 33 entries, and as long as the buffer: place 0")
for entries in ("-", "00*7", "00*9", "00*7 27 00*7", "00*257", "(00*7 ++)*33", "00*99999"):
    budgets(entries, small, (4, 0))
group("W7, 4: the length before the second entry, falling or above 2^47: 33 entries, 17 bytes")
for entries in ("00*7 05 00*7 04 00*248", "00*7 05 (000080 00*4 01)*32", "00*7 05 00*7 04 00"):
    budgets(entries, small, (4, 0))
group("W7, 4: 2^47 + 1 alone, first, in the middle, last, last of 32; 2^64 - 1; not 2^47")
for entries, place in [([TOP + 1], 0), ([TOP + 1, TOP + 2], 0), ([39, TOP + 1, TOP + 2], 1), ([38, 39, TOP + 1], 2), ([0, 2**64 - 1], 1)]:
    budgets(entries, small, (4, place))
budgets("(00*7 ++)*31 000080 00*4 01", small, (4, 31))
along([TOP - 1, TOP, TOP], of_small, small)
group("W7, 4: falling by 1, the first pair, the last, to 0, below the neighbour alone, last of 32; high byte first; not these rising")
for entries, place in [([39, 38], 1), ([40, 39, 50], 1), ([38, 40, 39], 2), ([TOP, 0], 1), ([3, 9, 8, 9], 2), ([256, 255], 1)]:
    budgets(entries, small, (4, place))
budgets("(00*7 ++)*31 00*7 1d", small, (4, 31))
along([255, 256, 2**40 - 1, 2**40], of_small, small)
group("W7, 4: both faults, either first; both of one entry")
for entries, place in [([39, TOP + 1, 5], 1), ([39, 38, TOP + 1], 1), ([TOP + 1, 5], 0), ([1, 2, 1, TOP + 1], 2),
                       ([1, TOP + 2, TOP + 1], 1)]:
    budgets(entries, small, (4, place))

group("W7: 1 to 7 and 12 to 15 of the sheet before 4 of a falling list and before 16; before one of no bytes, too long, too large; 16 alone")
faults = [(TOO_LONG, (1, 0)), (b"", (2, 36)), (b"\xff", (3, 36)), (pair(1, 0) + END, (4, 38)), (pair(3) + END, (5, 37)),
          (pair(0) + END, (6, 37)), (END + END, (7, 37)), (reading(1, 0) + END, (12, 38)), (reading(1, DEAR) + END, (13, 38)),
          (at_rest(0, 0) + END, (14, 37)), (pair(1) + at_rest(1, 3) + END, (15, 53))]
for more, answer in faults:
    budgets([1, 0], over + more, answer)
for (more, answer), entries in zip(faults[2::2], ("-", "00*264", [0, TOP + 1], [1])):
    budgets(entries, over + more, answer)
group("W7: the sheet's own budget above 2^47 is refused at its place, before the list, after 08 too")
budgets([39], sample(TOP + 1), (4, 7))
budgets([2, 1], in_tenths(100, sample(TOP + 1)), (4, 6))

with_rests_of_3 = [3, *ends(rested(3))]
group("W7, 16 by the first budget: rests of 3 in all: at 3 and above, the sheet's own 0, 2, 2^47; each total of the run, and one below")
for entries, own in [([3], 0), ([3, 4], 2), ([4, 39], TOP), (about(with_rests_of_3), 0)]:
    along(entries, with_rests_of_3, rested(own))
group("W7, 16: the first at 2 or 0, later ones above 3; the sheet's own 2^47, 39, 0")
for entries, own in [([2], TOP), ([2, 3], 39), ([0, 171, TOP], TOP), ([2, 2, 39], 0)]:
    budgets(entries, rested(own), (16, 0))
group("W7: 4 of the list before 16: falling, too large, its length")
for entries, place in [([1, 0], 1), ([1, TOP + 1], 1), ("00*7 01 00", 0), ("-", 0)]:
    budgets(entries, over + END, (4, place))
group("W7, 16: rests of silenced tones are not counted: 2 of 3, all")
along([1, 3, 4, 7, 8, TOP], [1, 4, 8, 18, 30, 78], line(3, 0, silence(0, 1), *cold))
budgets([0, 1], line(3, 39, *cold, silence(0, 1)), (16, 0))
along([0, 3, TOP], [0], line(3, 0, *cold, silence(0, 7)))

group("W7: nothing described; N 256")
along([0, 39, TOP], [0], line(3, 39))
along("(00*7 ++)*32", [0], line(256, 0))
# Rests of 2, 1, 2, 1; cost 3 each, or 30: the first steps are 1, 2, 1, 8, or 28, 29, 28, 89.
group("W7: tones of all four commands with rests: each total and one below, but the first; the same at 08 of 100")
totals = [6, 7, 8, 10, 16, 22, 28, 36, 48, 60, 72, 96, 120, 144, 180, 228, 276, 324]
along(about(totals)[1:], totals, line(4, 0, *alternate))
totals = [6, 34, 62, 91, 151, 211, 271, 360]
along(about(totals), totals, in_tenths(100, line(4, TOP, *alternate)))
group("W7: the sample line's pairs as 09, and as 0a with rests")
along([2, 3, 38, 39, TOP], bare, as_readings(sample(0), False))
along([3, 4, 38, 39, TOP], with_rests_of_3, as_readings(rested(3), True))

group("W7: 256 tones: 32 budgets from 0 to 31 on pairs of cost 1; 32 up to 2^47 on pairs and singles by turns; the largest cost")
along("(00*7 ++)*32", list(range(257)), wide(0, ALL_PAIRS))
dice = random.Random(7)
budgets(sorted([dice.randint(0, 9999) for _ in range(28)]) + [12345, 3000000, 50000000, TOP], wide(0, BY_TURNS))
full = 256 * 32767 * 16776705
largest = budgets([0, 16776704, 16776705, full // 2, full - 1, full, TOP], wide(39, LARGEST_COST_PAIRS, 65535))
assert largest[:3] == [(0, 0), (0, 0), (1, 16776705)] and largest[4:] == [(3839, full - 16384 * 16776705), (3840, full), (3840, full)]
group("W7: 194 pairs with a rest of 1 at 194 and above; 16 at 193; a sheet of 4,096 bytes with 40 rests")
resting = "(%s)*194" % RESTING % 1
budgets([194, 195, 387, 388, 391, 392, TOP], wide(0, resting),
        [(0, 194), (1, 195), (193, 387), (194, 388), (194, 388), (195, 392), (2910, 194 * 65534)])
budgets([193, 194], wide(TOP, resting), (16, 0))
budgets([40, 80, 82, 1000000], wide(39, FORTY))
group("W7: six lines of up to five tones with rests and up to a dozen budgets; in two of them one entry is changed")
for turn in range(6):
    sheet = with_rests(dice.randint(2, 5), 0)
    entries = sorted(dice.randint(model.number(sheet[7:15]), 150) for _ in range(dice.randint(4, 12)))
    if turn % 3 == 2:
        entries[dice.randrange(len(entries))] = dice.choice((0, 75, TOP + 1))
    budgets(entries, at_budget(dice.choice((0, 39, TOP)), sheet))

group("W7: a sheet whose first digit is b, as the word budgets begins")
for first in ["b0", "bb 00"]:
    add(first, (3, 0))

# Twins. A sheet of short commands and one of their twins say the same line.


def of_tone(command, number, width=None):
    """A short command's bytes for another tone, its number in so many bytes, or as the tidy form has it."""
    return model.named(command[0], number, width) + command[2:]


rest = at_rest(1, 2)
group("W8: the twins of 04, 05, 09, 0a for a low tone: tidied to the short command")
for way in ways:
    add(head() + twin(way) + END, (3, 1, 0), head() + way + END)
group("W8: a rest by 0b for a tone of each twin, by 1b for one of each command, by 1b for a twin; of 0 by 1b; before its tone's silence")
for way in ways:
    for described_by, given_by in [(twin(way), rest), (way, twin(rest)), (twin(way), twin(rest))]:
        add(head() + described_by + given_by + END, (3, 1, 0), head() + way + rest + END)
    add(head() + way + twin(at_rest(1, 0)) + END, (3, 1, 0), head() + way + END)
    add(head() + twin(way) + twin(rest) + silence(0, 2) + END, (3, 1, 1), head() + way + rest + silence(0, 2) + END)
group("W8: the sample line in twins, with rests, with its pairs as 09 and 0a, with 08; some twins among short commands")
for sheet in (model.SAMPLE, rested(39), as_readings(rested(39), False), as_readings(rested(39), True), in_tenths(100, model.SAMPLE)):
    add(twinned(sheet), (3, 3, 0), sheet)
add(line(3, 39, twin(described[2]), twin(described[1]), described[0], at_rest(1, 1), twin(at_rest(0, 2))), (3, 3, 0), rested(39))
group("W8: the twins for tone N - 1 and N: N 1, 256, 257, 1,024")
for way in ways:
    for n in (1, 256, 257, 1024):
        add(head(n) + of_tone(way, n - 1, 2) + END, (n, 1, 0), head(n) + of_tone(way, n - 1) + END)
        add(head(n) + of_tone(way, n, 2) + END, (5, 16))
for n in (1, 256, 257, 1024):
    add(head(n) + of_tone(pair(1), n - 1, 2) + of_tone(rest, n - 1, 2) + END, (n, 1, 0), head(n) + pair(n - 1) + at_rest(n - 1, 2) + END)
    add(head(n) + of_tone(pair(1), n - 1, 2) + of_tone(rest, n, 2) + END, (5, 32))
group("W8: a short command for tone 255 of 257 and of 1,024; a tone number high byte first; all of it: 256, 512, 65535 are not tone 0")
for n in (257, 1024):
    add(head(n) + pair(255) + END, (n, 1, 0))
add(head(300) + pair(0x0101) + END, (300, 1, 0))
add(head(300) + pair(0x0201) + END, (5, 16))
add(head(1024) + pair(0x0201) + pair(0x0102) + END, (1024, 2, 0), head(1024) + pair(0x0102) + pair(0x0201) + END)
for number in (256, 512, 1024, 0xff00, 65535):
    add(head() + pair(number) + END, (5, 16))
add(head(1024) + pair(65535) + END, (5, 16))
add(head(1024) + b"".join(pair(number) for number in (768, 512, 256, 0)) + END, (1024, 4, 0))

group("W8, the places in 14 and 15: noise, gain, cap, mask")
for command, over_cap in [(4, 16), (5, 8)]:
    for fault, place in [({"noise": 0}, 18), ({"gain": 0}, 20), ({"cap": over_cap}, 22), ({"mask": TOP + 1}, 23)]:
        add(head() + twin(tone(command, 1, **fault)) + END, (4, place))
group("W8, the places in 19 and 1a: 12, 13, 4 of the cap and of the mask")
for floats, levels, answer in [
        ((0, ONE), {}, (12, 18)), ((ONE, NAN), {}, (12, 22)), ((DEAR, ONE), {}, (13, 18)), ((GREATEST, SMALLEST), {}, (13, 18)),
        ((ONE, ONE), {"cap": 16}, (4, 26)), ((ONE, ONE), {"mask": TOP + 1}, (4, 27)), ((NAN,), {}, (12, 18)), ((DEAR,), {}, (13, 18)),
        ((ONE,), {"cap": 16}, (4, 22)), ((ONE,), {"mask": TOP + 1}, (4, 23))]:
    add(head() + twin(reading(1, *floats, **levels)) + END, answer)
group("W8, the places in 1b: 5, 14, 15, of a tone of 04, of 14; the same for tone 300 of 301")
for way in (pair(1), twin(pair(1))):
    at = 16 + len(way)
    for number, power, answer in [(3, 0, (5, at)), (0, 0, (14, at)), (1, 3, (15, at + 2)), (1, FULL, (15, at + 2))]:
        add(head() + way + twin(at_rest(number, power)) + END, answer)
for number, power, answer in [(301, 0, (5, 32)), (299, 0, (14, 32)), (300, 3, (15, 34)), (300, 2, (301, 1, 0))]:
    add(head(301) + pair(300) + at_rest(number, power) + END, answer)
group("W8, the places after 08 are one less: 4, 5, 6, 12, 13, 14, 15")
for commands, answer in [
        (twin(pair(1, 0)), (4, 17)), (twin(pair(3)), (5, 15)), (pair(1) + twin(single(1)), (6, 30)), (twin(reading(1, ONE, 0)), (12, 21)),
        (twin(reading(1, DEAR)), (13, 17)), (pair(1) + twin(at_rest(0, 0)), (14, 30)), (pair(1) + twin(at_rest(1, 30)), (15, 32))]:
    add(in_tenths(100, head() + commands + END), answer)
group("W8: a tone described twice, by a command and a twin, a twin and a command, two twins; tone 256 twice; tones 0 and 256")
for n, first in enumerate(ways):
    for second in (first, ways[n - 1]):
        for both in [(first, twin(second)), (twin(first), second), (twin(first), twin(second))]:
            add(head() + b"".join(both) + END, (6, 16 + len(both[0])))
add(head(257) + pair(256) + pair(0) + single(256) + END, (6, 47))
add(head(257) + pair(256) + pair(0) + twin(single(0)) + END, (6, 47))
group("W8, 14: a second rest by the other width, by 1b twice; the first of 0, of 2; of a tone of 04, of 14; of tone 256")
for way in (pair(1), twin(pair(1))):
    for first in (0, 2):
        for both in [(at_rest(1, first), twin(rest)), (twin(at_rest(1, first)), rest), (twin(at_rest(1, first)), twin(rest))]:
            add(head() + way + b"".join(both) + END, (14, 16 + len(way + both[0])))
for first in (0, 2):
    add(head(257) + pair(256) + at_rest(256, first) + at_rest(256, 0) + END, (14, 39))
group("W8, 14: tone 256 not described beside tone 0, and the other way round; described later; round the ends of words, a second of each")
for first, second in [(0, 256), (256, 0), (255, 256), (256, 512)]:
    add(head(1024) + pair(first) + at_rest(second, 0) + END, (14, 16 + len(pair(first))))
add(head(1024) + at_rest(256, 0) + pair(256) + END, (14, 16))
ends_of_words = (0, 255, 256, 287, 288, 511, 512, 767, 768, 1023)
resting = head(1024) + b"".join(pair(n) for n in ends_of_words) + b"".join(at_rest(n, n % 3) for n in ends_of_words)
add(resting + END, (1024, 10, 0))
for number in (255, 256, 288, 1023):
    add(resting + at_rest(number, 1) + END, (14, len(resting) + 1))

group("W8: the twins cut at each byte, between the two of the tone number too")
for way in [*ways, rest]:
    whole = head() + (pair(1) if way == rest else b"") + twin(way)
    for n in range(len(whole) - len(twin(way)) + 1, len(whole) + 1):
        add(whole[:n], (2, n))
group("W8, two faults: cut (2) before all of these; the tone (5, 6, 14) before what follows; the earlier first")
add(head() + b"\x14\xff", (2, 17))
add(head() + b"\x14\xff\xff", (2, 18))
add(head() + pair(1) + b"\x1b\xff\xff\xff\xff\xff", (2, 36))
add(head() + twin(reading(3, 0, NAN, cap=255))[:19], (2, 34))
add(head() + pair(1) + twin(single(1, 0, 0, 255, 2**64 - 1))[:15], (2, 45))
add(head() + twin(pair(3, 0, 0, 16, TOP + 1)) + END, (5, 16))
add(head() + pair(1) + twin(reading(1, 0, NAN, cap=16)) + END, (6, 31))
add(head() + pair(1) + twin(at_rest(0, FULL)) + END, (14, 31))
add(head() + twin(pair(1, 0)) + twin(pair(3)) + END, (4, 18))
add(head() + twin(pair(3)) + twin(pair(1, 0)) + END, (5, 16))
group("W8: twins first, in place of 02, of 03, after 08, after the end; cut off there")
for command in (twin(pair(1)), twin(rest), b"\x1a"):
    add(command + head() + END, (3, 0))
    add(size() + command, (3, 3))
    add(size() + gap() + command, (3, 6))
    add(size() + tenths(100) + command, (3, 5))
    add(head() + END + command, (7, 16))
group("W8: 10 (hex) more than a command without a tone: 11, 12, 18, 13 in the place of those; 16, 17 and others after the first three")
add(b"\x11" + head()[1:] + END, (3, 0))
for byte in (0x12, 0x18):
    add(size() + bytes([byte]) + gap()[1:] + budget() + END, (3, 3))
add(size() + gap() + b"\x13" + budget()[1:] + END, (3, 6))
add(head() + b"\x16\x00" + silence(0, 1)[1:] + END, (3, 15))
for byte in (0x10, 0x13, 0x16, 0x17, 0x18, 0x1d, 0x1f, 0x24, 0x84, 0x94):
    add(head() + bytes([byte]) + END, (3, 15))
add(head() + pair(1) + b"\x17", (3, 30))

group("W8: words 8 to 31, one bit each, rising and falling; all full; 32 and 255 behind them")
for words in (range(8, 32), range(31, 7, -1)):
    add(head(1024) + b"".join(silence(word, 1 << word) for word in words) + END, (1024, 0, 24),
        head(1024) + b"".join(silence(word, 1 << word) for word in range(8, 32)) + END)
add("%s (06 ++ ff*4)*32 07" % spelled(head(1024)), (1024, 0, 1024))
for word in (32, 255):
    add(head(1024) + silence(31, FULL) + silence(word, 0) + END, (4, 22))
group("W8: a map that names tone N - 1 and N: N 257, 288, 289, 1,023; a word past N, with an empty map and with one that is not")
for n, word, bit in [(257, 8, 0), (289, 9, 0), (1023, 31, 30)]:
    add(head(n) + silence(word, 1 << bit) + END, (n, 0, 1))
    add(head(n) + silence(word, 1 << bit + 1) + END, (5, 17))
add(head(288) + silence(8, FULL) + END, (288, 0, 32))
add(head(288) + silence(9, 1) + END, (5, 17))
for n in (3, 256, 992):
    add(head(n) + silence(31, 0) + END, (n, 0, 0))
    add(head(n) + silence(31, 1) + END, (5, 17))
add(head(256) + silence(8, 1) + END, (5, 17))
group("W8, tidy: maps of word 8 and of word 31 join, among those of words 0 and 7; tones 256, 287, 1,023 silenced before, after, both")
add(line(1024, 39, silence(31, 1), silence(8, 0xf0f0), silence(0, 2), silence(8, 0x0ff0), silence(7, 4), silence(31, FULL - 1)),
    (1024, 0, 46), line(1024, 39, silence(0, 2), silence(7, 4), silence(8, 0xfff0), silence(31, FULL)))
add(line(1024, 39, silence(8, 1), pair(256), single(1023), silence(31, 1 << 31), silence(8, 1 << 31), pair(287), silence(8, 1 << 31)),
    (1024, 3, 3), line(1024, 39, pair(256), pair(287), single(1023), silence(8, 1 << 31 | 1), silence(31, 1 << 31)))

group("W8, tidy: tones 255 and 256 next to each other: falling, in twins, with rests, of each command; 254 to 257")
for way in ways:
    both = of_tone(way, 255) + at_rest(255, 2) + of_tone(way, 256) + at_rest(256, 1)
    for first in (of_tone(way, 255), of_tone(way, 255, 2)):
        add(line(1024, 39, of_tone(way, 256), first, at_rest(256, 1), twin(at_rest(255, 2))), (1024, 2, 0), line(1024, 39, both))
    add(line(257, 39, both), (257, 2, 0), line(257, 39, both))
add(line(258, 39, *(of_tone(pair(1), n, 2) for n in (257, 255, 254, 256))), (258, 4, 0), line(258, 39, *(pair(n) for n in range(254, 258))))
add(line(258, 39, of_tone(pair(1), 255, 2), of_tone(at_rest(1, 0), 255, 2), pair(256), at_rest(256, 0)), (258, 2, 0),
    line(258, 39, pair(255), pair(256)))

group("W8: the sample line in twins: document 01's cases, and with rests; limits, budgets")
for b, bits in [(39, [3, 2, 1]), (38, [2, 2, 1]), (3, [1, 0, 0]), (171, [5, 2, 3])]:
    most(twinned(sample(b)), bits)
target(6, twinned(sample(39)), [3, 2, 1])
target(6, twinned(sample(38)), (11, 0))
refit([0, 2, 3], twinned(sample(39)), ([3, 2, 1], 3))
step([0, 2, 3], twinned(sample(39)), ([1, 2, 2], 1))
refit([5, 3, 3], twinned(sample(39)), (10, 1))
limited(twinned(sample(39)), "5:mask 2:cap 3:mask")
most(twinned(rested(4)), [1, 0, 0], [3, 1, 0])
most(twinned(rested(2)), (16, 0))
target(0, twinned(as_readings(rested(39), True)), [0, 0, 0], [2, 1, 0])
refit([0, 2, 3], twinned(as_readings(rested(39), False)), ([3, 2, 1], 3), [21, 15, 3])
along([2, 3, 38, 39, TOP], bare, twinned(sample(0)))
along([3, 4, 38, 39, TOP], with_rests_of_3, twinned(rested(3)))


def at_end(bits, n=258):
    """The bits of the last tones of a line; those before have none."""
    return [0] * (n - len(bits)) + bits


def moved(b, n=258):
    """The sample line's tones as the last three of more: of 258, tones 255, 256 and 257."""
    return line(n, b, *(of_tone(command, n - 3 + tone) for tone, command in enumerate(described)))


group("W8: its tones as 255, 256, 257: document 01's cases; as 1,021 to 1,023")
for b, bits in [(39, [3, 2, 1]), (38, [2, 2, 1]), (50, [3, 2, 1]), (51, [3, 2, 2]), (2, [0, 0, 0]), (3, [1, 0, 0]), (170, [5, 2, 2]),
                (171, [5, 2, 3])]:
    most(moved(b), at_end(bits))
target(6, moved(39), at_end([3, 2, 1]))
target(6, moved(38), (11, 0))
refit(at_end([0, 2, 3]), moved(39), (at_end([3, 2, 1]), 3))
step(at_end([0, 2, 3]), moved(39), (at_end([1, 2, 2]), 1))
step(at_end([3, 2, 1]), moved(39), (at_end([3, 2, 1]), 0))
most(moved(39, 1024), at_end([3, 2, 1], 1024))
refit(at_end([0, 2, 3], 1024), moved(38, 1024), (at_end([2, 2, 1], 1024), 2))
limited(moved(39), "0:silent " * 255 + "5:mask 2:cap 3:mask")
group("W8: ties of 255, 256, 257 at 3, 6, 9, 15 go to the lowest, described by 04 or 14, in either order; exchanges to it and not from it")
for first in (of_tone(pairs[0], 255), of_tone(pairs[0], 255, 2)):
    tied = [of_tone(pairs[0], 257), of_tone(pairs[0], 256), first]
    for b, bits in [(3, [1, 0, 0]), (6, [1, 1, 0]), (9, [1, 1, 1]), (15, [2, 1, 1])]:
        most(line(258, b, *tied), at_end(bits))
    for b, start, bits, moves in [(3, [0, 1, 0], [1, 0, 0], 1), (3, [1, 0, 0], [1, 0, 0], 0), (6, [0, 0, 2], [1, 1, 0], 2)]:
        refit(at_end(start), line(258, b, *reversed(tied)), (at_end(bits), moves))
    step(at_end([0, 1, 1]), line(258, 6, *tied), (at_end([1, 1, 0]), 1))
group("W8: ties of tones 0, 256, 512 and 768")
quarters = [of_tone(pairs[0], number) for number in (512, 0, 768, 256)]
for b, bits in [(3, [1, 0, 0, 0]), (9, [1, 1, 1, 0]), (15, [1, 1, 1, 1])]:
    most(line(1024, b, *quarters), [bits[n // 256] if n % 256 == 0 else 0 for n in range(1024)])
group("W8: tones 256 and 1,023 silenced, before their commands and after; one bit on such a one is 10; on one not described")
for commands in ([silence(8, 1), pair(256), pair(255)], [pair(255), pair(256), silence(8, 1)]):
    most(line(257, TOP, *commands), at_end([5, 0], 257))
    refit(at_end([1, 1], 257), line(257, TOP, *commands), (10, 256))
most(line(1024, TOP, pair(1022), pair(1023), silence(31, 1 << 31)), at_end([5, 0], 1024))
step(at_end([1], 1024), line(1024, TOP, pair(1022)), (10, 1023))
group("W8, 9: starts of 1,023, 1,025, 256 and no bytes for N 1,024, of 256 and 258 for N 257")
for n, wrong in [(1024, (1023, 1025, 256, 0)), (257, (256, 258))]:
    for length in wrong:
        refit([255] * length, line(n, TOP), (9, 0))
    refit([0] * n, line(n, TOP), ([0] * n, 0))
step([0] * 1025, line(1024, TOP), (9, 0))
group("W8, 16: rests of 2 on tones 255 and 256, and 1 on 1,023, at 5 and 4; a silence of word 8, of word 31 saves it; by the first budget")
resting = [pair(256), at_rest(256, 2), pair(255), pair(1023), at_rest(1023, 1), at_rest(255, 2)]
for b, commands, answer in [
        (5, resting, (1024, 3, 0)), (4, resting, (16, 0)), (3, [*resting, silence(8, 1)], (1024, 3, 1)),
        (2, [silence(8, 1), *resting], (16, 0)), (4, [*resting, silence(31, 1 << 31)], (1024, 3, 1)),
        (4, [*resting, silence(8, 2)], (16, 0)),
        (0, [silence(8, 1), *resting, silence(7, 1 << 31), silence(31, 1 << 31)], (1024, 3, 3))]:
    add(line(1024, b, *commands), answer)
# No bits send 5; the first steps are 1, 1 and 2.
along([5, 6, 7, 9], [5, 6, 7, 9], line(1024, 0, *resting))
budgets([4, 5], line(1024, TOP, *resting), (16, 0))

# Lines of 1,024 tones, written with a running byte: each 256 begin again at 0.


def blocks(*bodies):
    """Blocks of 256 tones, each with its high byte: by short commands where that is 0, else by their twins. In a body `#` stands for the
    first digit of a command, and `@` for the high byte."""
    return " ".join("(%s)*256" % body.replace("#", "1" if n else "0").replace("@ ", "%02x " % n if n else "") for n, body in bodies)


def all_tones(body, order=range(4)):
    return blocks(*((n, body) for n in order))


# Steps of 1 on every tone, then of 2.
SMALL = all_tones("#4 @ ++ 0001 0001 02 " + WIDE)
group("W8: 1,024 pairs of cost 1, cap 2: check and tidy; the blocks of 256 in another order, in twins; limits")
add(wide(39, SMALL, n=1024), (1024, 1024, 0), model.bytes_of(wide(39, SMALL, n=1024)))
assert len(model.bytes_of(wide(39, SMALL, n=1024))) == 16 + 256 * 15 + 768 * 16
operands = "0001 0001 02 " + WIDE
add(wide(39, "(14 03 ++ %s 15 01 == %s)*256 (14 00 ++ %s)*128 (04 ++ %s)*128 (15 02 ++ %s)*256" % (5 * (operands,)), n=1024),
    (1024, 1024, 0))
limited(wide(39, SMALL, n=1024), " ".join(["2:cap"] * 1024))
group("W8: its most bits at 0, 1, 255, 256, 1,023, 1,025, 1,026, one below the full table's power, 2^47; its targets")
for b, bits in [(0, []), (1, [1]), (255, [1] * 255), (256, [1] * 256), (1023, [1] * 1023), (1025, [1] * 1024), (1026, [2] + [1] * 1023),
                (3071, [2] * 1023 + [1]), (TOP, [2] * 1024)]:
    most(wide(b, SMALL, n=1024), bits + [0] * (1024 - len(bits)))
target(1024, wide(1025, SMALL, n=1024), [1] * 1024)
target(1025, wide(1025, SMALL, n=1024), (11, 0))
target(2049, wide(TOP, SMALL, n=1024), (11, 0))
group("W8: its re-fits from the full table at 0 and 1,024, from the upper half, from no bits; steps; 10 at 256 and 1,023")
refit([2] * 1024, wide(0, SMALL, n=1024), ([0] * 1024, 2048))
refit([2] * 1024, wide(1024, SMALL, n=1024), ([1] * 1024, 1024))
refit([0] * 512 + [2] * 512, wide(1024, SMALL, n=1024), ([1] * 1024, 512))
refit([0] * 1024, wide(256, SMALL, n=1024), ([1] * 256 + [0] * 768, 256))
step([0] * 1023 + [1], wide(1, SMALL, n=1024), ([1] + [0] * 1023, 1))
step([1] * 255 + [0, 1] + [0] * 767, wide(256, SMALL, n=1024), ([1] * 256 + [0] * 768, 1))
step([1] * 257 + [0] * 767, wide(256, SMALL, n=1024), ([1] * 256 + [0] * 768, 1))
refit([2] * 256 + [3] * 768, wide(TOP, SMALL, n=1024), (10, 256))
refit([2] * 1023 + [3], wide(TOP, SMALL, n=1024), (10, 1023))
group("W8: 32 budgets on it: from 0 to 31, and up to 2^47")
totals = [*range(1024), *range(1024, 3073, 2)]
along("(00*7 ++)*32", totals, wide(39, SMALL, n=1024))
along([0, 255, 256, 1023, 1024, 1025, 1026, 3071, 3072, TOP], totals, wide(0, SMALL, n=1024))
group("W8: 1,024 pairs of cost 1, cap 15, at 2^47: 15,360 bits")
most(wide(TOP, all_tones("#4 @ ++ 0001 0001 0f " + WIDE), n=1024), [15] * 1024)
# A full table sends above 2^47; 13 bits each send 21,465,924,608 less than that, and a step from there is 8,192 costs.
group("W8: 1,024 pairs of the largest cost at 2^47: 13 bits each; re-fits from the full table, above the budget, and from 13, 14 by turns")
DEAREST = all_tones("#4 @ ++ ffff 0001 0f " + WIDE)
assert 1024 * 32767 * 16776705 > TOP > 1024 * 8191 * 16776705 > TOP - 8192 * 16776705
most(wide(TOP, DEAREST, 65535, 1024), [13] * 1024)
refit([15] * 1024, wide(TOP, DEAREST, 65535, 1024), ([13] * 1024, 2048))
# The upper half gives its bits to the lower, in 256 exchanges; then 512 are given up.
refit("(0d 0e)*512", wide(TOP, DEAREST, 65535, 1024), ([13] * 1024, 768))
group("W8: 1,024 tones of all four commands with costs that rise: most bits, target, re-fit; the same budgets in a list")
FOUR = blocks((0, "04 ++ 01== 0020 03 " + WIDE), (1, "15 01 ++ 01== 000a 03 " + WIDE), (2, "19 02 ++ 41==0000 3f80==00 03 " + WIDE),
              (3, "1a 03 ++ 41==0000 03 " + WIDE))
bits = most(wide(60000, FOUR, n=1024))
target(sum(bits), wide(60000, FOUR, n=1024), bits)
target(sum(bits) + 1, wide(60000, FOUR, n=1024), (11, 0))
refit([3] * 1024, wide(60000, FOUR, n=1024), (bits, 3072 - sum(bits)))
refit("(00 03)*512", wide(60000, FOUR, n=1024))
budgets([0, 1000, 20000, 60000, TOP], wide(39, FOUR, n=1024))
group("W8: 1,024 pairs of cost 2, cap 2, each with a rest of 1: 16 at 1,023, no bits at 1,024; 1,025 and more; rests behind all tones")
STRAIGHT = all_tones("#4 @ ++ 0002 0001 02 %s #b @ == 00*3 01" % WIDE)
BEHIND_ALL = all_tones("#4 @ ++ 0002 0001 02 " + WIDE) + " " + all_tones("#b @ ++ 00*3 01", (3, 1, 2, 0))
most(wide(1023, STRAIGHT, n=1024), (16, 0))
for b, bits in [(1024, []), (1025, [1]), (1280, [1] * 256), (2048, [1] * 1024), (2052, [2] + [1] * 1023)]:
    most(wide(b, STRAIGHT, n=1024), bits + [0] * (1024 - len(bits)))
refit([2] * 1024, wide(1281, BEHIND_ALL, n=1024), ([1] * 257 + [0] * 767, 2048 - 257))
add(wide(1023, BEHIND_ALL, n=1024), (16, 0))
most(wide(1023, BEHIND_ALL + " 06 1f 80 00*3", n=1024), [0] * 1024, [1] * 1023 + [0])
budgets([1024, 1025, 2048, 2052], wide(0, BEHIND_ALL, n=1024), [(0, 1024), (1, 1025), (1024, 2048), (1025, 2052)])
budgets([1023, 1024], wide(TOP, STRAIGHT, n=1024), (16, 0))
# The longest tidy form without 0c: 1,024 tones of 09 or 19 with rests, 27,136 bytes, and a map of each word, 192; 904 maps of nothing.
group("W8: 32,768 bytes: 1,024 tones of 09 and 19 with rests, maps of 32 words, and maps of nothing; a byte more; its most bits, limits")
MAPS = " (06 ++ 00*3 01)*32"
WHOLE = all_tones("#9 @ ++ 40400000 3f800000 01 00*7 64 #b @ == 00*3 02") + MAPS
FILLED = WHOLE + " (06 00*5)*904"
assert [len(model.bytes_of(wide(2047, body, n=1024))) for body in (WHOLE, FILLED)] == [27344, 32768]
add(wide(2047, FILLED, n=1024), (1024, 1024, 32), model.bytes_of(wide(2047, WHOLE, n=1024)))
for more in ("07", "00"):
    add(wide(2047, FILLED, n=1024) + " " + more, (1, 0))
add(wide(1983, FILLED, n=1024), (16, 0))
# Rests of 2 on 992 tones; a first step is 1.
for b, bits in [(1984, 0), (2047, 63), (2976, 992)]:
    given = most(wide(b, FILLED, n=1024))
    assert sum(given) == bits and given[:34] == [0] + [min(bits, 1)] * 31 + [0] + [min(bits, 1)]
most(wide(2047, FILLED, n=1024) + " 07", (1, 0))
limited(wide(1984, FILLED, n=1024), " ".join((["0:silent"] + ["1:cap"] * 31) * 32))

dice = random.Random(1024)


def some_twins(sheet):
    """A sheet with the twin of some of its short commands."""
    return b"".join(twin(c) if c[0] in model.AFTER_TONE and dice.randint(0, 1) == 0 else c for c in model.commands_of(sheet))


group("W8: six lines of 6, 258 and 1,024 tones, up to eight described: check and tidy, most bits, re-fit, step, target, budgets")
for turn in range(6):
    n = (6, 258, 1024)[turn % 3]
    least = with_rests(n, 0, 9, sorted({*range(2), *range(254, 258), *range(n - 2, n)} & {*range(n)}))
    b = model.number(least[7:15])
    sheet = some_twins(at_budget(b + dice.choice((0, dice.randint(0, 9), dice.randint(0, 200))), least))
    add(sheet, model.check(sheet))
    start = [dice.randint(0, limit) for limit in model.loading_of(sheet).limits]
    bits, _ = refit(start, sheet)
    most(sheet, bits)
    step(start, sheet)
    target(max(0, sum(bits) - dice.randint(-1, 3)), sheet)
    budgets(sorted(dice.randint(max(0, b - 1), b + 150) for _ in range(dice.randint(1, 5))), sheet)
group("W8: a dozen lines of 258 tones at a smaller budget, with a 0b or 1b, or a command, of any tone behind: mostly refused")
for turn in range(4):
    least = some_twins(with_rests(258, 0, 9, [0, 1, 254, 255, 256, 257]))
    number = dice.choice((0, 1, 254, 255, 256, 257, 258))
    width = dice.choice((None, 2))
    add(least[:-1] + of_tone(at_rest(0, dice.choice((0, 1, 2, FULL))), number, width) + END, None)
    add(least[:-1] + of_tone(dice.choice(ways), number, width) + END, None)
    add(at_budget(max(0, model.number(least[7:15]) - dice.randint(0, 2)), least), None)

# High noises. A pair and a single have noise 3 where none is said.

group("W9: 0c of 3, 4, 65535 at noise 3, dropped where it is 3; on a single; 14 and 1c for a low tone; 256 at noise 255; 65535 at 65535")
add(head() + pair(1) + high(1, 3) + END, (3, 1, 0), head() + pair(1) + END)
for command in (pair(1) + high(1, 4), pair(1) + high(1, 65535), single(1) + high(1, 4)):
    add(head() + command + END, (3, 1, 0), head() + command + END)
add(head() + twin(pair(1)) + twin(high(1, 4)) + END, (3, 1, 0), head() + pair(1) + high(1, 4) + END)
add(head() + pair(1, 255) + high(1, 256) + END, (3, 1, 0), head() + pair(1, 255) + high(1, 256) + END)
add(head() + pair(1, 65535) + twin(high(1, 65535)) + END, (3, 1, 0), head() + pair(1, 65535) + END)
group("W9, tidy: 0c after 0b, whichever came first, by either width; beside a rest of 0; an equal one beside a rest")
for given in (rest + high(1, 4), high(1, 4) + rest, twin(high(1, 4)) + twin(rest)):
    add(head() + pair(1) + given + END, (3, 1, 0), head() + pair(1) + rest + high(1, 4) + END)
add(head() + single(1) + high(1, 4) + at_rest(1, 0) + END, (3, 1, 0), head() + single(1) + high(1, 4) + END)
add(head() + single(1) + high(1, 3) + rest + END, (3, 1, 0), head() + single(1) + rest + END)
# The cost of noise 3 and gain 2 is 2, and so is that of noise 4.
group("W9, tidy: behind other tones and silences; of the same cost; tones of all four commands; tones 255, 256, 1,023")
add(line(3, 39, silence(0, 1), *reversed(described), high(2, 2), high(1, 5), high(0, 6), at_rest(1, 1), at_rest(0, 2)), (3, 3, 1),
    line(3, 39, described[0], at_rest(0, 2), high(0, 6), described[1], at_rest(1, 1), described[2], high(2, 2), silence(0, 1)))
add(line(3, 39, pair(1, 3, 2), silence(0, 2), high(1, 4)), (3, 1, 1), line(3, 39, pair(1, 3, 2), high(1, 4), silence(0, 2)))
add(line(4, 39, *reversed(four), high(3, 4), *behind, high(0, 4)), (4, 4, 0),
    line(4, 39, *alternate[:2], high(0, 4), *alternate[2:], high(3, 4)))
add(line(1024, 39, pair(1023), pair(256), high(256, 4), of_tone(single(1), 255, 2), at_rest(256, 1), high(1023, 65535),
         of_tone(high(1, 4), 255, 2)), (1024, 3, 0),
    line(1024, 39, single(255), high(255, 4), pair(256), at_rest(256, 1), high(256, 4), pair(1023), high(1023, 65535)))

group("W9, 4 at the high noise: 2 and 0 at noise 3, by 0c and 1c, of a single, of a silenced tone; 255 at noise 256")
for commands, place in [(pair(1) + high(1, 2), 32), (pair(1) + high(1, 0), 32), (single(1) + twin(high(1, 2)), 33),
                        (twin(pair(1)) + high(1, 2), 33), (silence(0, 2) + pair(1) + high(1, 2), 38), (pair(1, 256) + high(1, 255), 32)]:
    add(head() + commands + END, (4, place))
group("W9, 4 at the tone: a tone of 09, 0a, 19, 1a, by 0c and 1c, of a noise that is larger, and of 0; after its rest")
for way in ways[2:]:
    add(head() + way + high(1, 65535) + END, (4, 16 + len(way)))
    add(head() + twin(way) + twin(high(1, 0)) + END, (4, 16 + len(twin(way))))
add(head() + ways[3] + rest + high(1, 4) + END, (4, 37))
group("W9, 14: not described, described later; a second 0c after an equal one and after a larger, by either width, with a 0b between")
add(head() + high(1, 4) + pair(1) + END, (14, 16))
add(head() + pair(1) + high(0, 4) + END, (14, 31))
for both in [(high(1, 3), high(1, 3)), (high(1, 4), high(1, 4)), (high(1, 3), twin(high(1, 4))), (twin(high(1, 4)), high(1, 4))]:
    add(head() + pair(1) + b"".join(both) + END, (14, 31 + len(both[0])))
add(head() + pair(1) + high(1, 3) + rest + high(1, 4) + END, (14, 41))
group("W9: a second 0b after a 0c is 14; a tone with a 0c described again is 6; 15 by the noise, not by the high one; 16 beside a 0c")
add(head() + pair(1) + rest + high(1, 4) + rest + END, (14, 41))
add(head() + pair(1) + high(1, 4) + single(1) + END, (6, 35))
add(head() + pair(1) + high(1, 9) + at_rest(1, 3) + END, (15, 36))
add(line(3, 1, pair(1), high(1, 9), rest), (16, 0))
group("W9: 5 before all, by 0c and 1c, also for tone 256; 14 before 4 at the high noise")
add(head() + pair(1) + high(3, 0) + END, (5, 31))
add(head() + reading(1, THREE) + twin(high(3, 0)) + END, (5, 31))
add(head(256) + pair(0) + high(256, 0) + END, (5, 31))
add(head() + pair(1) + high(0, 0) + END, (14, 31))
add(head() + pair(1) + high(1, 4) + high(1, 0) + END, (14, 35))
group("W9: 0c and 1c cut in the tone's number, in the high noise, behind it; cut (2) before they are judged")
for given in (high(1, 4), twin(high(1, 4))):
    for n in range(1, len(given) + 1):
        add(head() + pair(1) + given[:n], (2, 30 + n))
add(head() + reading(1, THREE) + high(3, 0)[:3], (2, 33))
group("W9: 0c first, in place of 02, of 03, after the end; 1c after 08; the places after 08 are one less")
add(high(1, 4) + head() + END, (3, 0))
add(size() + high(1, 4) + budget() + END, (3, 3))
add(size() + gap() + high(1, 4) + END, (3, 6))
add(size() + tenths(100) + twin(high(1, 4)), (3, 5))
add(head() + pair(1) + END + high(1, 4), (7, 31))
add(in_tenths(100, head() + reading(1, THREE) + high(1, 4) + END), (4, 30))
add(in_tenths(100, head() + pair(1) + high(1, 2) + END), (4, 31))

# The sample line with high noises 6 on tone 0 and 2 on tone 2, by hand. There the costs are 6, 5 and 2. Powers of one bit, two, ..: 6, 18,
# 42, 90 on tone 0; 5, 15 on tone 1; 6, 30 on tone 2. The steps in their order, and the total once each is taken:
#   step   5  6  6 10 12 24 24  48
#   tone   1  0  2  1  0  0  2   0
#   total  5 11 17 27 39 63 87 135
ranged = model.ranged
assert ends(ranged(0), model.guarded_loading_of) == [5, 11, 17, 27, 39, 63, 87, 135]
group("W9: the guarded loading of the sample line with high noises 6 on tone 0 and 2 on tone 2: at 3, 5, 38, 39, 134, 2^47")
for b, bits, plain, powers in [
        (3, [0, 0, 0], 1, [0, 0, 0]), (5, [0, 1, 0], 1, [0, 5, 0]), (38, [1, 2, 1], 5, [6, 15, 6]), (39, [2, 2, 1], 6, [18, 15, 6]),
        (134, [3, 2, 2], 9, [42, 15, 30]), (TOP, [4, 2, 2], 10, [90, 15, 30])]:
    guarded(ranged(b), (bits, plain), powers)
group("W9: its other calls do not see them: most bits, target, re-fit, step, limits, budgets")
most(ranged(39), [3, 2, 1], [21, 15, 3])
target(10, ranged(171), [5, 2, 3])
refit([5, 2, 3], ranged(39), ([3, 2, 1], 4), [21, 15, 3])
step([0, 2, 3], ranged(39), ([1, 2, 2], 1))
limited(ranged(39), "5:mask 2:cap 3:mask")
along(about(bare), bare, ranged(0))
group("W9: guarded without high noises, and with equal ones: the loading for most bits; in twins; nothing described")
guarded(sample(39), ([3, 2, 1], 6), [21, 15, 3])
guarded(ranged(38, 3, 1), ([2, 2, 1], 5), [9, 15, 3])
guarded(twinned(ranged(39)), ([2, 2, 1], 6), [18, 15, 6])
guarded(line(3, TOP), ([0, 0, 0], 0))
# No bits send 3, and the first steps are 4 on tones 0 and 1; then as above.
group("W9: guarded with rests of 2 on tone 0 and 1 on tone 1: 16 at 2; 3, 7, 39; with tone 0 silenced; with all, at 0")
cold_ranged = [described[0], high(0, 6), at_rest(0, 2), described[1], at_rest(1, 1), described[2], high(2, 2)]
guarded(line(3, 2, *cold_ranged), (16, 0))
for b, bits, plain, powers in [(3, [0, 0, 0], 0, [2, 1, 0]), (7, [1, 0, 0], 2, [6, 1, 0]), (39, [2, 2, 1], 6, [18, 15, 6])]:
    guarded(line(3, b, *cold_ranged), (bits, plain), powers)
guarded(line(3, 39, *cold_ranged, silence(0, 1)), ([0, 2, 1], 4), [0, 15, 6])
guarded(line(3, 0, silence(0, 7), *cold_ranged), ([0, 0, 0], 0), [0, 0, 0])
group("W9: guarded, one pair: bits lost by the mask, none by the cap, all but the rest; a cost rounded up, 08, up to the largest cost")
for b, commands, bits, plain, power in [
        (TOP, [pair(0), high(0, 4)], 4, 5, 60), (TOP, [pair(0, cap=2), high(0, 4)], 2, 2, 12),
        (TOP, [pair(0), at_rest(0, 2), high(0, 101)], 0, 5, 2), (14, [pair(0, 3, 2), high(0, 4)], 3, 3, 14),
        (14, [pair(0, 3, 2), high(0, 5)], 2, 3, 9)]:
    guarded(line(1, b, *commands), ([bits], plain), [power])
guarded(in_tenths(100, line(1, 100, pair(0, mask=1000), high(0, 6))), ([1], 2), [60])
for b, bits in [(16776704, 0), (TOP, 15)]:
    guarded(size(1) + gap(65535) + budget(b) + pair(0, 1, 1, 15, TOP) + high(0, 65535) + END, ([bits], 15), [16776705 * (2**bits - 1)])
group("W9: guarded, another order: pairs of noise 3 and 4, the first up to 5, up to 4; singles; beside 09 and 0a")
for b, most_of_0, bits, plain, powers in [(4, 5, [0, 1], 1, [0, 4]), (8, 5, [0, 1], 2, [0, 4]), (4, 4, [1, 0], 1, [4, 0])]:
    guarded(line(2, b, pair(0), pair(1, 4), high(0, most_of_0)), (bits, plain), powers)
guarded(line(2, 21, single(0, 1), single(1, 1), high(0, 2)), ([1, 2], 3), [6, 15])
guarded(line(3, 39, reading(0, THREE, ONE), pair(1), high(1, 6), reading(2, THREE)), ([3, 1, 2], 7), [21, 6, 9])
group("W9: guarded: the sample line's tones as 255, 256, 257; 256 pairs of cost 1, the first 128 up to 3; the pump drive of examples/")
guarded(line(258, 39, *(of_tone(command, 255 + number) for number, command in enumerate(described)), high(255, 6), high(257, 2)),
        (at_end([2, 2, 1]), 6))
guarded(wide(256, "(04 ++ 0001 0001 02 %s)*256 (0c ++ 0003)*128" % WIDE), ([0] * 128 + [2] * 64 + [1] * 64, 256))
most(example("pump_drive"))
guarded(example("pump_drive"))
# The longest tidy form there is: 1,024 tones of 04 or 14 with rests and high noises, 27,904 bytes, and a map of each word, 192. Of 992 tones
# a first step is 1, and at the high noise 4.
group("W9: 1,024 tones with rests and high noises, 28,112 bytes: check and tidy; guarded at 100 above its rests")
WHOLE = all_tones("#4 @ ++ 0003 0001 01 00*7 64 #b @ == 00*3 02 #c @ == 0006") + MAPS
assert len(model.bytes_of(wide(2084, WHOLE, n=1024))) == 28112
add(wide(2084, WHOLE, n=1024), (1024, 1024, 32), model.bytes_of(wide(2084, WHOLE, n=1024)))
guarded(wide(2084, WHOLE, n=1024), ([0] + [1] * 25 + [0] * 998, 100))
group("W9: guarded: refusals of the sheet, 0c's own among them, and 16")
for more, answer in [*faults[::3], (high(0, 2) + END, (4, 38)), (high(0, 3) + high(0, 3) + END, (14, 41)), (END, (16, 0))]:
    guarded(over + more, answer)

dice = random.Random(12)


def with_ranges(sheet):
    """A sheet with high noises of some of its tones of 04 and 05, anywhere behind these, some equal to the noise, some by twins."""
    commands = model.commands_of(sheet[:-1])
    for number, (command, noise, *_) in model.read(sheet).tones.items():
        if command in (4, 5) and dice.randint(0, 3) > 0:
            own = next(i for i, c in enumerate(commands) if model.tone_of(c) == number)
            given = of_tone(high(0, noise + dice.choice((0, 1, dice.randint(2, 9)))), number, dice.choice((None, 2)))
            commands.insert(dice.randint(own + 1, len(commands)), given)
    return b"".join(commands) + END


def losing(n):
    """Such a line of up to n tones whose guarded loading carries fewer bits than the plain one."""
    while True:
        sheet = with_ranges(with_rests(n, dice.randint(0, 150), 9, sorted({*range(5), *range(255, 258)} & {*range(n)})))
        (bits, _, plain), _ = model.call("guarded", None, sheet, model.ROOM)
        if bits < plain:
            return sheet


group("W9: four lines of up to six tones, and one of 258, with rests and high noises that cost bits: check and tidy, guarded")
for n in (6, 6, 5, 4, 258):
    sheet = losing(n)
    add(sheet, model.check(sheet))
    guarded(sheet)

text = "".join(r + "\n" for r in ROWS)
# The test program's buffer for its text (`text_buffer` of crates/samplebuffers).
assert len(text) <= 524288, len(text)
for name, what in [("stdin", text), ("stdout", model.expected(text))]:
    with open(sys.argv[1] + "/" + name, "w") as f:
        f.write(what)
print(SHEETS, "sheets,", LOADINGS, "loadings,", LIMITS, "limits,", LISTS, "lists of budgets,", len(text), "bytes")
