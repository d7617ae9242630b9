#!/usr/bin/env python3
"""A model of document 01 and of document 02's requests W1, W3 and W5 to W9, written from the papers and the readings of docs/DECISIONS.md:
reading a sheet with its refusals, check, tidy, the limits, the loadings, the guarded one among them, the re-fit and the totals at many
budgets. Plain and slow; floats are worked out in whole numbers and fractions.

  model.py < stdin > stdout      what the test program prints for a text of calls
  model.py --selftest            the paper's own statements
"""
import copy, functools, math, re, sys
from fractions import Fraction


class Refused(Exception):
    """A refusal: its number and place."""


def number(data):
    """Operands stand high byte first."""
    return int.from_bytes(data, "big")


# "Size may be up to 1,024, and a silence word up to 31"; "A sheet may be 32,768 bytes".
MOST_TONES, LAST_WORD, LONGEST = 1024, 31, 32768

# "Operands": the widths, in order, and for a command with a tone number those behind it.
AFTER_TONE = {
    0x04: [("noise", 2), ("gain", 2), ("cap", 1), ("mask", 8)],
    0x05: [("noise", 2), ("gain", 2), ("cap", 1), ("mask", 8)],
    0x09: [("noise float", 4), ("gain float", 4), ("cap", 1), ("mask", 8)],
    0x0a: [("ratio float", 4), ("cap", 1), ("mask", 8)],
    0x0b: [("rest", 4)],
    0x0c: [("high noise", 2)],
}


def of_width(command, width):
    """The command with a tone number of so many bytes: "a twin, 10 (hex) higher, with a two-byte tone number"."""
    return command + 0x10 * (width - 1)


# Each command with a tone number as (its one-byte form, the width of that number), and "its other operands alike".
TONED = {of_width(command, width): (command, width) for command in AFTER_TONE for width in (1, 2)}
OPERANDS = {
    0x01: [("size", 2)],
    0x02: [("gap", 2)],
    0x03: [("budget", 8)],
    0x06: [("word", 1), ("map", 4)],
    0x07: [],
    0x08: [("tenths", 1)],
    **{command: [("tone", width), *AFTER_TONE[short]] for command, (short, width) in TONED.items()},
}

# "256 to 65,535", "0 to 2^47", "1 to 65,535", "one operand byte d from 0 to 240"; the cap goes by kind.
RANGES = {
    "size": (1, MOST_TONES),
    "gap": (256, 65535),
    "budget": (0, 2**47),
    "noise": (1, 65535),
    "gain": (1, 65535),
    "mask": (0, 2**47),
    "word": (0, LAST_WORD),
    "tenths": (0, 240),
}
# "Such a tone", of 09 or 0A, "is a pair tone to all the loadings".
CAPS = {0x04: (0, 15), 0x05: (0, 7), 0x09: (0, 15), 0x0a: (0, 15)}
GROWTH = {0x04: 2, 0x05: 4, 0x09: 2, 0x0a: 2}
FLOATS = {0x09: ["noise float", "gain float"], 0x0a: ["ratio float"]}
# "the cost is over 16,776,705".
LARGEST_COST = 16776705
# What is given of a tone that is described already, once each.
ADDED = (0x0b, 0x0c)


@functools.lru_cache(maxsize=None)
def gap_of(tenths):
    """The smallest whole g with g^100 at least 256^100 × 10^d. One by one; what is too small for a tenth less is too small here."""
    g = gap_of(tenths - 1) if tenths > 0 else 0
    while g**100 < 256**100 * 10**tenths:
        g += 1
    return g


# 32-bit IEEE floats, as their bits: the sign, 8 bits of exponent, 23 of fraction.

INFINITE = 0x7f800000


def exact(bits):
    """The exact value of a float; None where it is not finite."""
    sign, exponent, fraction = bits >> 31, bits >> 23 & 0xff, bits & 0x7fffff
    if exponent == 0xff:
        return None
    # With exponent 0, a zero or a subnormal, the unit is that of exponent 1, and no leading bit is left out.
    whole = fraction if exponent == 0 else 2**23 + fraction
    return (-1)**sign * whole * Fraction(2)**(max(exponent, 1) - 150)


def nearest(value):
    """The float nearest to a value above zero, and the even one of two as near; INFINITE where the exponents end."""
    # The power of two at or below the value, and not below that of the smallest normal float.
    top = value.numerator.bit_length() - value.denominator.bit_length()
    top = max(top if Fraction(2)**top <= value else top - 1, -126)
    if top > 127:
        return INFINITE
    units = value / Fraction(2)**(top - 23)
    whole = math.floor(units)
    over = units - whole - Fraction(1, 2)
    if over > 0 or over == 0 and whole % 2 == 1:
        whole += 1
    # From 2^23 units on the leading bit counts as one more exponent, and so does a sum that was rounded up to 2^24.
    return (top + 126) * 2**23 + whole


@functools.lru_cache(maxsize=None)
def cost_of_floats(gap, floats):
    """The larger of 1 and the smallest whole number not below g × ratio / 256, "the float taken at its exact value", where the
    ratio of two floats is "the one float quotient, rounded once, to nearest"; None where that is infinite."""
    ratio = floats[0] if len(floats) == 1 else nearest(exact(floats[0]) / exact(floats[1]))
    if ratio == INFINITE:
        return None
    return max(1, math.ceil(gap * exact(ratio) / 256))


class Line:
    """N, gap, budget, the described tones with what they carry, their rests and high noises, and the set of silenced tones. "Which it
    was", 02 or 08, "belongs to the line": `tenths` is the d of 08, and None where 02 gave the gap. `rests` has none of 0, and `highs`
    none that equals the noise: a tone with one is a tone without."""

    def __init__(self):
        self.size = self.gap = self.tenths = self.budget = None
        self.tones = {}
        self.rests = {}
        self.highs = {}
        self.silenced = set()

    def same(self, other):
        return vars(self) == vars(other)


def allowed(commands_read):
    """01, 02, 03 come first, each once, in that order, and 08 "may stand where 02 stands"; then any number of 04, 05, 06, of 09 and
    0A, which describe a tone too, of 0B, of 0C, and of twins; then 07."""
    if commands_read < 3:
        return [{0x01}, {0x02, 0x08}, {0x03}][commands_read]
    return {0x06, 0x07, *TONED}


def cost_of(line, tone):
    """The smallest whole number not below g × noise / (256 × gain); of floats by the request's sentence."""
    command, *levels, _, _ = line.tones[tone]
    if command in FLOATS:
        return cost_of_floats(line.gap, tuple(levels))
    noise, gain = levels
    return -(-line.gap * noise // (256 * gain))


def sent_at_rest(line, tone):
    """The power at no bits: "the rest, 0 where none is given"; "a silenced tone sends nothing"."""
    return 0 if tone in line.silenced else line.rests.get(tone, 0)


def judge_float(line, command, name, values, place):
    """Refusal 12 of a float, and 13, "placed at the first float and judged straight after the last float of its command"."""
    value = exact(values[name])
    if value is None or value <= 0:
        raise Refused(12, place)
    if name == FLOATS[command][-1]:
        cost = cost_of_floats(line.gap, tuple(values[f] for f in FLOATS[command]))
        if cost is None or cost > LARGEST_COST:
            raise Refused(13, place - 4 * (len(FLOATS[command]) - 1))


def judge_rest(line, tone, rest, place):
    """Refusal 15: "the rest is not below the cost or is above the mask"."""
    *_, mask = line.tones[tone]
    if rest >= cost_of(line, tone) or rest > mask:
        raise Refused(15, place)


def noise_of(line, tone):
    """The noise of a tone of 04 or 05."""
    _, noise, *_ = line.tones[tone]
    return noise


def judge_tone(line, had, command, tone, place):
    """Refusals 5, 6 and 14 of a tone operand, and 4 of that of 0C: 14 where the tone "is in range but not yet described or has had a 0B
    already"; "a tone undescribed or given twice is 14, as in W6; then a tone of another command is 4 at the tone"."""
    if tone >= line.size:
        raise Refused(5, place)
    if command in ADDED:
        if tone not in line.tones or (command, tone) in had:
            raise Refused(14, place)
        if command == 0x0c and line.tones[tone][0] in FLOATS:
            raise Refused(4, place)
    elif tone in line.tones:
        raise Refused(6, place)


def judge(line, had, command, name, value, values, place):
    """Refusals 4, 5, 6, 12 to 15 of one operand, `values` holding it and those before it, `had` the tones that have had a 0B, and those
    that have had a 0C."""
    if name == "tone":
        judge_tone(line, had, command, value, place)
        return
    if name == "rest":
        judge_rest(line, values["tone"], value, place)
        return
    if name == "high noise":
        # "then a high noise below the noise is 4 at that operand".
        if value < noise_of(line, values["tone"]):
            raise Refused(4, place)
        return
    if name == "map":
        if any(value >> k & 1 and 32 * values["word"] + k >= line.size for k in range(32)):
            raise Refused(5, place)
        return
    if name in FLOATS.get(command, []):
        judge_float(line, command, name, values, place)
        return
    low, high = CAPS[command] if name == "cap" else RANGES[name]
    if not low <= value <= high:
        raise Refused(4, place)


def act(line, command, values):
    if command in (0x01, 0x02, 0x03):
        (name, value), = values.items()
        setattr(line, name, value)
    elif command == 0x08:
        line.tenths, line.gap = values["tenths"], gap_of(values["tenths"])
    elif command in CAPS:
        tone, *numbers = values.values()
        line.tones[tone] = (command, *numbers)
    elif command == 0x06:
        line.silenced |= {32 * values["word"] + k for k in range(32) if values["map"] >> k & 1}
    elif command == 0x0b and values["rest"] > 0:
        line.rests[values["tone"]] = values["rest"]
    elif command == 0x0c and values["high noise"] > noise_of(line, values["tone"]):
        line.highs[values["tone"]] = values["high noise"]


def said(sheet):
    """The line that the bytes of a sheet say; else Refused(number, place), of 1 to 7 and 12 to 15. A 0B is remembered "even of rest
    0", and a 0C even of the noise, by the reading alone. A twin is judged and does as its one-byte form, which is what the line knows."""
    if len(sheet) > LONGEST:
        raise Refused(1, 0)
    line, had, at, commands = Line(), set(), 0, 0
    while True:
        if at == len(sheet):
            raise Refused(2, len(sheet))
        command = sheet[at]
        if command not in allowed(commands):
            raise Refused(3, at)
        operands = OPERANDS[command]
        if at + 1 + sum(w for _, w in operands) > len(sheet):
            raise Refused(2, len(sheet))
        command, _ = TONED.get(command, (command, 0))
        at, values = at + 1, {}
        for name, width in operands:
            values[name] = value = number(sheet[at:at + width])
            judge(line, had, command, name, value, values, at)
            at += width
        act(line, command, values)
        if command in ADDED:
            had.add((command, values["tone"]))
        commands += 1
        if command == 0x07:
            if at < len(sheet):
                raise Refused(7, at)
            return line


def judge_rests(line, budget):
    """Refusal 16: "rests of unsilenced tones add up to more than the budget, place 0"."""
    if sum(sent_at_rest(line, tone) for tone in line.rests) > budget:
        raise Refused(16, 0)


def read(sheet):
    """The line of an accepted sheet; else Refused(number, place), with 16 "in every call that reads a sheet, after 7 and before
    8"."""
    line = said(sheet)
    judge_rests(line, line.budget)
    return line


def check(sheet):
    line = read(sheet)
    return line.size, len(line.tones), len(line.silenced)


def named(command, tone, width=None):
    """A command and its tone number, in so many bytes; else as "tidying uses the short command for tones up to 255"."""
    width = width or (1 if tone <= 255 else 2)
    return bytes([of_width(command, width)]) + tone.to_bytes(width, "big")


def tidy_form(line):
    """"The tidy form keeps whichever command the sheet had", and each tone its own, or its twin. "Tidying keeps the float bits", and
    "puts 0B straight after its tone and drops one whose rest is 0", which the line does not have; 0C "after the tone's rest", dropped
    "where it equals the noise", likewise."""
    out = b"\x01" + line.size.to_bytes(2, "big")
    out += b"\x02" + line.gap.to_bytes(2, "big") if line.tenths is None else bytes([8, line.tenths])
    out += b"\x03" + line.budget.to_bytes(8, "big")
    for tone in sorted(line.tones):
        command, *numbers = line.tones[tone]
        out += named(command, tone) + b"".join(n.to_bytes(w, "big") for n, (_, w) in zip(numbers, AFTER_TONE[command]))
        if tone in line.rests:
            out += named(0x0b, tone) + line.rests[tone].to_bytes(4, "big")
        if tone in line.highs:
            out += named(0x0c, tone) + line.highs[tone].to_bytes(2, "big")
    for word in range(LAST_WORD + 1):
        joined = sum(1 << k for k in range(32) if 32 * word + k in line.silenced)
        if joined:
            out += bytes([6, word]) + joined.to_bytes(4, "big")
    return out + b"\x07"


def tidy(sheet, room):
    """The bytes written; refusal 8 where they do not fit."""
    out = tidy_form(read(sheet))
    if room < len(out):
        raise Refused(8, 0)
    return out


# Loading.

SILENT, CAP, MASK = 0, 1, 2
WORDS = ["silent", "cap", "mask"]


class Loading:
    """A line's tones as the runs see them. Steps are pairs (size, tone), which Python orders as the paper does: by size, then by
    lower tone number."""

    def __init__(self, line):
        self.line, self.tones = line, range(line.size)
        self.limits = [self.limit(tone) for tone in self.tones]
        self.powers = [[self.power(tone, b) for b in range(self.limits[tone] + 1)] for tone in self.tones]
        # The power of b + 1 bits less the power of b, for each b below the limit.
        self.steps = [[(more - less, tone) for less, more in zip(powers, powers[1:])] for tone, powers in enumerate(self.powers)]

    def cost(self, tone):
        return cost_of(self.line, tone)

    def power(self, tone, bits):
        """Pair w × (2^b - 1), single w × (4^b - 1). "The power at no bits becomes the rest"; the others stay, so that "the first step
        shrinks by it"."""
        if bits == 0:
            return sent_at_rest(self.line, tone)
        return self.cost(tone) * (GROWTH[self.line.tones[tone][0]] ** bits - 1)

    def limit(self, tone):
        """The largest b that is at most the cap and has power at most the mask; 0 of a tone not described, or silenced."""
        if tone not in self.line.tones or tone in self.line.silenced:
            return 0
        *_, cap, mask = self.line.tones[tone]
        return max(b for b in range(cap + 1) if self.power(tone, b) <= mask)

    def set_by(self, tone):
        """What set the limit: "mask exactly if one bit more would still be within the cap but over the mask, and cap otherwise; every
        other tone is silent"."""
        if tone not in self.line.tones or tone in self.line.silenced:
            return SILENT
        *_, cap, mask = self.line.tones[tone]
        one_more = self.limit(tone) + 1
        return MASK if one_more <= cap and self.power(tone, one_more) > mask else CAP

    def total(self, table):
        return sum(powers[bits] for powers, bits in zip(self.powers, table))

    # "Steps of one tone strictly rise", so its first free step is the one at its bits, and its last held step the one below.

    def earliest_free(self, table):
        return min((steps[bits] for steps, bits in zip(self.steps, table) if bits < len(steps)), default=None)

    def latest_held(self, table):
        return max((steps[bits - 1] for steps, bits in zip(self.steps, table) if bits > 0), default=None)

    def fits(self, table, step):
        return self.total(table) + step[0] <= self.line.budget

    def adding(self, target=None):
        """Most bits, or a set number of bits."""
        table = [0] * self.line.size
        while sum(table) != target:
            free = self.earliest_free(table)
            if free is None or not self.fits(table, free):
                break
            table[free[1]] += 1
        return table

    def refit_step(self, table):
        """The table after the step, and whether it moved."""
        table, held, free = list(table), self.latest_held(table), self.earliest_free(table)
        if held and free and free < held:
            table[held[1]] -= 1
            table[free[1]] += 1
        elif self.total(table) > self.line.budget:
            table[held[1]] -= 1
        elif free and self.fits(table, free):
            table[free[1]] += 1
        else:
            return table, False
        return table, True

    def refit(self, table):
        """The table that the run ends in, and the number of moves."""
        moves, (table, moved) = 0, self.refit_step(table)
        while moved:
            moves, (table, moved) = moves + 1, self.refit_step(table)
        return table, moves

    def least_powers(self):
        """For each number of bits the least power of a table within the limits that carries it: every table is weighed."""
        least = [0]
        for powers in self.powers:
            sums = {}
            for bits, so_far in enumerate(least):
                for more, power in enumerate(powers):
                    sums[bits + more] = min(sums.get(bits + more, so_far + power), so_far + power)
            least = [sums[bits] for bits in range(len(sums))]
        return least

    def written(self, table):
        """9 bytes a tone: bits, then power in 8 bytes, high byte first."""
        return b"".join(bytes([bits]) + self.powers[tone][bits].to_bytes(8, "big") for tone, bits in enumerate(table))


def with_noises(line, noises):
    """The line with other noises of some of its tones, and no ranges."""
    out = copy.copy(line)
    out.tones = {tone: (command, noises.get(tone, level), *rest) for tone, (command, level, *rest) in line.tones.items()}
    out.highs = {}
    return out


@functools.lru_cache(maxsize=None)
def loading_of(sheet):
    return Loading(read(sheet))


@functools.lru_cache(maxsize=None)
def guarded_loading_of(sheet):
    line = read(sheet)
    return Loading(with_noises(line, line.highs))


def seen_by(word, sheet):
    """The tones as a call sees them: "a guarded loading uses every high noise", "all other loadings ignore 0C"."""
    return guarded_loading_of(sheet) if word == "guarded" else loading_of(sheet)


@functools.lru_cache(maxsize=None)
def run(word, argument, sheet):
    """The table that a call ends in, and the moves: the start of a re-fit meets no refusal, and a target may be above what is carried."""
    loading = seen_by(word, sheet)
    if word in ("most", "guarded"):
        return loading.adding(), None
    if word == "target":
        return loading.adding(argument), None
    if word == "step":
        table, moved = loading.refit_step(argument)
        return table, int(moved)
    return loading.refit(argument)


def carried(loading, target, sheet):
    """Whether a table within limits and budget carries the target. Long lines are answered by the run, which `hold` compares
    with this on the others."""
    if sum(loading.limits) > 400:
        return sum(run("target", target, sheet)[0]) == target
    return target <= sum(loading.limits) and loading.least_powers()[target] <= loading.line.budget


def call(word, argument, sheet, room):
    """A loading (`most`, `guarded`, `target` with a number) or a re-fit (`refit`, `step`, each with a start): its answers and bytes. The
    guarded one "also answers the total bits of the plain loading at the low noises"."""
    loading = seen_by(word, sheet)
    if room < 9 * loading.line.size:
        raise Refused(8, 0)
    if word in ("refit", "step"):
        if len(argument) != loading.line.size:
            raise Refused(9, 0)
        for tone, bits in enumerate(argument):
            if bits > loading.limits[tone]:
                raise Refused(10, tone)
    if word == "target" and not carried(loading, argument, sheet):
        raise Refused(11, 0)
    table, moves = run(word, argument, sheet)
    hold(loading, word, argument, table, moves, sheet)
    answers = (sum(table), loading.total(table)) + (() if moves is None else (moves,))
    if word == "guarded":
        answers += (sum(run("most", None, sheet)[0]),)
    return answers, loading.written(table)


def limits(sheet, room):
    """2 bytes a tone: the limit, then what set it; refusal 8 under 2 × N bytes."""
    loading = loading_of(sheet)
    if room < 2 * loading.line.size:
        raise Refused(8, 0)
    return b"".join(bytes([loading.limits[tone], loading.set_by(tone)]) for tone in loading.tones)


def entries_of(listed):
    """The budgets of a list, 8 bytes each; else refusal 4, "its length judged first with place 0, else with the number, from 0, of
    the first entry that is too large or below the one before it"."""
    if len(listed) == 0 or len(listed) % 8 != 0 or len(listed) > 32 * 8:
        raise Refused(4, 0)
    entries = [number(listed[i:i + 8]) for i in range(0, len(listed), 8)]
    for place, entry in enumerate(entries):
        if entry > RANGES["budget"][1] or place > 0 and entry < entries[place - 1]:
            raise Refused(4, place)
    return entries


def with_budget(sheet, budget):
    """The bytes of an accepted sheet with another budget: its operand begins one byte earlier after 08 than after 02."""
    at = 7 if sheet[3] == 0x02 else 6
    return sheet[:at] + budget.to_bytes(8, "big") + sheet[at + 8:]


def budgets(sheet, listed, room):
    """For each budget of the list 12 bytes, total bits in 4 and total power in 8: "what a loading with that budget alone would
    give". Refusal 4 of the list "comes straight after 7, then 16, judged against the first budget, then 8, which here means under
    12 bytes a budget"; the sheet's own budget is judged by its range alone."""
    line = said(sheet)
    entries = entries_of(listed)
    judge_rests(line, entries[0])
    if room < 12 * len(entries):
        raise Refused(8, 0)
    alone = [call("most", None, with_budget(sheet, entry), 9 * line.size)[0] for entry in entries]
    return b"".join(bits.to_bytes(4, "big") + power.to_bytes(8, "big") for bits, power in alone)


def hold(loading, word, argument, table, moves, sheet):
    """What the paper says of a table beyond how it is found."""
    assert all(bits <= limit for bits, limit in zip(table, loading.limits))
    bits, power, budget = sum(table), loading.total(table), loading.line.budget
    if word == "step":
        return
    assert power <= budget
    if word == "target":
        assert bits == argument
    if word == "refit":
        # Demand 3, and a bound on the moves: as many as the limits add up to.
        assert table == run("most", None, sheet)[0] and moves <= sum(loading.limits)
    if word == "guarded":
        # "for every choice of noises inside the ranges its table keeps limits and budget": here the low ones; `guarded_selftest` has all.
        low = loading_of(sheet)
        assert all(bits <= limit for bits, limit in zip(table, low.limits)) and low.total(table) <= power
        assert bits <= sum(run("most", None, sheet)[0])
    if sum(loading.limits) <= 400:
        least = loading.least_powers()
        assert power == least[bits]
        if word != "target":
            assert all(power > budget for power in least[bits + 1:])


# The test program's text format.

# Above the bytes that a sheet may have, and those of a table.
ROOM = 32800
assert ROOM > LONGEST and ROOM > 9 * MOST_TONES


def bytes_of(text):
    """Bytes as crates/sampletext reads them."""
    out, last = bytearray(), 255
    assert re.fullmatch(r" *-? *|([ 0-9a-f*+=]|\([ 0-9a-f*+=]*\)\*\d+(?!\d))*", text), text
    for group, times, plain in re.findall(r"\(([^)]*)\)\*(\d+)|([^(]+)", text):
        for _ in range(int(times or 1)):
            for item in re.findall(r"[0-9a-f]{2}\*\d+|[0-9a-f]{2}|\+\+|==|[^ ]", group or plain):
                if item == "++":
                    last = (last + 1) % 256
                if item in ("++", "=="):
                    out.append(last)
                elif item != "-":
                    byte, _, many = item.partition("*")
                    out += bytes.fromhex(byte) * int(many or 1)
    return bytes(out[:ROOM])


def report(sheet):
    """The lines that the test program prints for one sheet."""
    try:
        counts = check(sheet)
    except Refused as r:
        return ["refused %d %d" % r.args]
    out = tidy(sheet, ROOM)
    again = tidy(out, len(out))
    lines = ["check %d %d %d" % counts, "tidy %d %s" % (len(out), out.hex())]
    lines.append("again %d %s" % (len(again), "same" if again == out else "differs"))
    try:
        tidy(sheet, len(out) - 1)
        lines.append("short 0 0 touched")
    except Refused as r:
        lines.append("short %d %d untouched" % r.args)
    return lines


def tones_of(table):
    """A table's 9 bytes a tone as the test program prints them."""
    if len(table) > 32 * 9:
        return " length and sum %d %d" % (len(table), sum((len(table) - i) * byte for i, byte in enumerate(table)) % 2**64)
    return "".join(" %d:%d" % (table[i], number(table[i + 1:i + 9])) for i in range(0, len(table), 9))


# What the test program prints before the answers of each loading and re-fit.
ANSWERED = {"most": "loaded", "guarded": "guarded", "target": "loaded", "refit": "refitted", "step": "refitted"}


def call_of(row):
    """The word, the argument and the sheet of a line that is a loading, a re-fit or a list of budgets; else None."""
    word, _, rest = row.partition(" ")
    if word not in ANSWERED and word != "budgets":
        return None
    argument, slash, sheet = rest.partition("/")
    assert slash and len(sheet) > 0, row
    argument = int(argument) if word == "target" else bytes_of(argument) if argument.strip() else None
    return word, argument, bytes_of(sheet)


def report_call(word, argument, sheet):
    """The lines that the test program prints for a loading or a re-fit."""
    try:
        size = read(sheet).size
    except Refused:
        size = 0
    try:
        answers, table = call(word, argument, sheet, ROOM)
        lines = [" ".join([ANSWERED[word]] + [str(n) for n in answers])]
        lines += ["table" + tones_of(table)]
        lines += ["exact " + ("same" if call(word, argument, sheet, 9 * size) == (answers, table) else "differs")]
    except Refused as r:
        lines = ["refused %d %d untouched" % r.args]
    try:
        call(word, argument, sheet, max(9 * size - 1, 0))
        lines.append("short 0 0 touched")
    except Refused as r:
        lines.append("short %d %d untouched" % r.args)
    return lines


def report_limits(sheet):
    """The lines that the test program prints for the limits of a sheet."""
    try:
        size = read(sheet).size
    except Refused:
        size = 0
    try:
        out = limits(sheet, ROOM)
        tones = ["%d:%s" % (out[i], WORDS[out[i + 1]]) for i in range(0, len(out), 2)]
        lines = [" ".join(["limits"] + tones), "exact " + ("same" if limits(sheet, 2 * size) == out else "differs")]
    except Refused as r:
        lines = ["refused %d %d untouched" % r.args]
    try:
        limits(sheet, max(2 * size - 1, 0))
        lines.append("short 0 0 touched")
    except Refused as r:
        lines.append("short %d %d untouched" % r.args)
    return lines


def pairs_of(out):
    """Bits and power of each budget, from 12 bytes each."""
    return [(number(out[i:i + 4]), number(out[i + 4:i + 12])) for i in range(0, len(out), 12)]


def report_budgets(listed, sheet):
    """The lines that the test program prints for a list of budgets: it gives 12 bytes for each whole 8 of the list, and one less, as
    far as its buffer goes."""
    size = 12 * (len(listed) // 8)
    try:
        out = budgets(sheet, listed, ROOM)
        lines = [" ".join(["budgets"] + ["%d:%d" % pair for pair in pairs_of(out)])]
        lines += ["exact " + ("same" if budgets(sheet, listed, min(size, ROOM)) == out else "differs")]
    except Refused as r:
        lines = ["refused %d %d untouched" % r.args]
    try:
        budgets(sheet, listed, min(max(size - 1, 0), ROOM))
        lines.append("short 0 0 touched")
    except Refused as r:
        lines.append("short %d %d untouched" % r.args)
    return lines


def expected(text):
    lines = []
    for row in text.split("\n"):
        if row.startswith("#"):
            lines.append(row)
        elif call_of(row):
            word, *rest = call_of(row)
            lines += report_budgets(*rest) if word == "budgets" else report_call(word, *rest)
        elif row.startswith("limits /"):
            lines += report_limits(bytes_of(row[len("limits /"):]))
        elif row:
            lines += report(bytes_of(row))
    return "".join(l + "\n" for l in lines)


# The paper's own statements.

SAMPLE = bytes.fromhex(
    "01 00 03 02 01 00 03 00 00 00 00 00 00 00 27 04 00 00 03 00 01 0f 00 00 00 00 00 00 00 64"
    "04 01 00 05 00 01 02 00 00 00 00 00 00 00 64 05 02 00 01 00 01 07 00 00 00 00 00 00 00 64 07")


def refusal(sheet):
    try:
        read(sheet)
    except Refused as r:
        return r.args
    return (0, 0)


def sample(budget):
    return SAMPLE[:7] + budget.to_bytes(8, "big") + SAMPLE[15:]


def sample_in_tenths(tenths):
    return SAMPLE[:3] + bytes([8, tenths]) + SAMPLE[6:]


def one_tone(kind, gap, noise, gain, cap, mask):
    line = Line()
    line.size, line.gap, line.budget, line.tones = 1, gap, 0, {0: (kind, noise, gain, cap, mask)}
    return Loading(line)


def refused_call(*words):
    try:
        call(*words)
    except Refused as r:
        return r.args


def loading_selftest():
    # "Limits 5, 2, 3", and the cases below "Sample line".
    assert loading_of(SAMPLE).limits == [5, 2, 3]
    most = {39: ([3, 2, 1], 39), 38: ([2, 2, 1], 27), 50: ([3, 2, 1], 39), 51: ([3, 2, 2], 51), 2: ([0, 0, 0], 0), 3: ([1, 0, 0], 3),
            170: ([5, 2, 2], 123), 171: ([5, 2, 3], 171)}
    for budget, (table, power) in most.items():
        assert loading_of(sample(budget)).adding() == table
        assert call("most", None, sample(budget), 27)[0] == (sum(table), power)
    assert [loading_of(SAMPLE).powers[t][b] for t, b in enumerate([3, 2, 1])] == [21, 15, 3]
    assert call("target", 6, sample(39), 27)[0] == (6, 39) and refused_call("target", 6, sample(38), 27) == (11, 0)
    assert all(refused_call("target", 11, sample(b), 27) == (11, 0) for b in (0, 38, 39, 171, 2**47))
    assert call("target", 0, sample(39), 27) == ((0, 0), bytes(27))
    steps = [[0, 2, 3], [1, 2, 2], [2, 2, 1], [3, 2, 1]]
    assert call("refit", bytes(steps[0]), sample(39), 27)[0] == (6, 39, 3)
    assert all(loading_of(SAMPLE).refit_step(a) == (b, True) for a, b in zip(steps, steps[1:]))
    assert loading_of(SAMPLE).refit_step(steps[3]) == (steps[3], False)
    assert loading_of(sample(38)).refit([0, 2, 3]) == ([2, 2, 1], 2)
    assert one_tone(4, 257, 1, 1, 0, 0).cost(0) == 2 and one_tone(4, 256, 7, 2, 0, 0).cost(0) == 4
    assert [one_tone(4, 256, 3, 1, 15, mask).limits[0] for mask in (2, 3, 8, 9)] == [0, 1, 1, 2]
    # "from 1 to 16,776,705"; "at least that exact fraction and less than 1 above it".
    assert one_tone(5, 65535, 65535, 1, 0, 0).cost(0) == 16776705 and one_tone(5, 256, 1, 65535, 0, 0).cost(0) == 1
    # The refusals in number order.
    assert refused_call("refit", b"\0" * 4, SAMPLE, 26) == (8, 0) and refused_call("refit", b"\xff" * 4, SAMPLE, 27) == (9, 0)
    assert refused_call("step", bytes([5, 3, 4]), SAMPLE, 27) == (10, 1) and refused_call("target", 11, SAMPLE, 26) == (8, 0)
    # The earliest free and the latest held step are those of all steps, and steps of one tone strictly rise.
    import random
    dice = random.Random(2)
    for _ in range(500):
        line = Line()
        line.size, line.gap, line.budget = dice.randint(1, 6), dice.randint(256, 1024), dice.randint(0, 400)
        for tone in dice.sample(range(line.size), dice.randint(0, line.size)):
            kind = dice.choice([4, 5])
            line.tones[tone] = (kind, dice.randint(1, 6), dice.randint(1, 3), dice.randint(0, CAPS[kind][1]), dice.randint(0, 300))
        line.silenced = set(dice.sample(range(line.size), dice.randint(0, line.size // 2)))
        for tone in line.tones:
            line.rests[tone] = dice.randint(0, min(cost_of(line, tone) - 1, line.tones[tone][-1]))
        line.budget += sum(line.rests.values())
        loading = Loading(line)
        table = [dice.randint(0, limit) for limit in loading.limits]
        held = [loading.steps[t][b] for t in loading.tones for b in range(table[t])]
        free = [loading.steps[t][b] for t in loading.tones for b in range(table[t], loading.limits[t])]
        assert loading.earliest_free(table) == min(free, default=None) and loading.latest_held(table) == max(held, default=None)
        for tone, steps in enumerate(loading.steps):
            assert len(steps) == loading.limits[tone] and all(a < b for a, b in zip(steps, steps[1:]))
        assert loading.refit(table)[0] == loading.adding() and loading.refit(table)[1] <= sum(loading.limits)


def limits_selftest():
    # "the sample's lines at budget 39 end in mask, cap, mask".
    assert limits(SAMPLE, 6) == bytes([5, MASK, 2, CAP, 3, MASK]) and refused_limits(SAMPLE, 5) == (8, 0)
    # A cap of 0; a mask of 0 under a cap above 0; one bit more would be over the cap and over the mask; over the cap alone.
    edges = [one_tone(4, 256, 3, 1, cap, mask) for cap, mask in ((0, 100), (15, 0), (2, 9), (2, 100))]
    assert [(edge.limits[0], edge.set_by(0)) for edge in edges] == [(0, CAP), (0, MASK), (2, CAP), (2, CAP)]
    # "every other tone is silent": one silenced, one not described.
    silenced = SAMPLE[:2] + b"\4" + SAMPLE[3:60] + bytes.fromhex("060000000002") + SAMPLE[60:]
    assert limits(silenced, 8) == bytes([5, MASK, 0, SILENT, 3, MASK, 0, SILENT])
    assert refused_limits(SAMPLE[:60], 0) == (2, 60)


def refused_limits(*words):
    try:
        limits(*words)
    except Refused as r:
        return r.args


def tenths_selftest():
    # "d = 0 gives 256, d = 100 gives 2,560 and d = 200 gives 25,600"; "a table of 241 entries", gaps that 02 could give.
    assert [gap_of(tenths) for tenths in (0, 100, 200)] == [256, 2560, 25600]
    assert all(256 <= gap_of(tenths) <= 65535 for tenths in range(241))
    in_tenths, whole = sample_in_tenths(100), SAMPLE[:3] + b"\x02\x0a\x00" + SAMPLE[6:]
    assert read(in_tenths).gap == read(whole).gap == 2560 and not read(in_tenths).same(read(whole))
    assert loading_of(in_tenths).powers == loading_of(whole).powers
    # "The tidy form keeps whichever command the sheet had".
    assert tidy(in_tenths, 60) == in_tenths and tidy(whole, 61) == whole
    # "d from 0 to 240"; "may stand where 02 stands".
    assert [refusal(sample_in_tenths(d)) for d in (240, 241, 255)] == [(0, 0), (4, 4), (4, 4)]
    assert refusal(in_tenths[:4]) == (2, 4) and all(refusal(in_tenths[:n]) == (2, n) for n in range(60))
    assert refusal(in_tenths[3:5] + in_tenths) == (3, 0) and refusal(in_tenths[:5] + SAMPLE[3:]) == (3, 5)
    assert refusal(SAMPLE[:6] + in_tenths[3:]) == (3, 6) and refusal(SAMPLE[:15] + in_tenths[3:5] + SAMPLE[15:]) == (3, 15)


def floats_selftest():
    # Values that the format gives: 1, the next above and below, the largest, the smallest normal, the ends of the subnormals.
    values = {0x3f800000: 1, 0x3f800001: 1 + Fraction(1, 2**23), 0x3f7fffff: 1 - Fraction(1, 2**24), 0x7f7fffff: 2**128 - 2**104,
              0x00800000: Fraction(1, 2**126), 0x007fffff: Fraction(2**23 - 1, 2**149), 0x00000001: Fraction(1, 2**149),
              0x4b7ffe01: LARGEST_COST, 0x3eaaaaab: Fraction(11184811, 2**25)}
    for bits, value in values.items():
        assert exact(bits) == value and nearest(Fraction(value)) == bits and exact(bits | 1 << 31) == -value
    assert exact(0) == exact(1 << 31) == 0
    assert all(exact(bits) is None for bits in (INFINITE, 0xff800000, 0x7f800001, 0x7fc00000, 0xffc00000, 0x7fffffff, 0xffffffff))
    # Nearest: halfway between neighbours to the even one, on either side of it to the nearer, at every kind of float.
    tiny = Fraction(1, 2**200)
    for low in (0x3f800000, 0x3f800001, 0x007fffff, 0x00800000, 0x00000001, 0x00000002, 0x3fffffff, 0x7f7ffffe, 0x40400000):
        half = (exact(low) + exact(low + 1)) / 2
        assert [nearest(half + over) for over in (-tiny, 0, tiny)] == [low, low + low % 2, low + 1]
    # Infinite from halfway past the largest float on, 2^128 - 2^103. Half of the smallest subnormal: zero; more: the smallest.
    top, half = Fraction(2**128 - 2**103), Fraction(1, 2**150)
    assert [nearest(value) for value in (top - 1, top, top + 1, Fraction(2**300))] == [0x7f7fffff, INFINITE, INFINITE, INFINITE]
    assert [nearest(value) for value in (tiny, half, half + tiny, 3 * half)] == [0, 0, 1, 2]
    assert nearest(Fraction(1, 3)) == 0x3eaaaaab and nearest(Fraction(2, 3)) == 0x3f2aaaab and nearest(Fraction(1, 10)) == 0x3dcccccd


def readings_selftest():
    # "the larger of 1 and the smallest whole number not below g × ratio / 256".
    assert [cost_of_floats(256, (bits,)) for bits in (1, 0x3f800000, 0x3f800001, 0x40400000, 0x4b7ffe01)] == [1, 1, 2, 3, LARGEST_COST]
    assert cost_of_floats(65535, (0x477fff00,)) == LARGEST_COST and cost_of_floats(257, (0x3f800000,)) == 2
    # "rounded once": a third is rounded up, so that three times it is above 1. A quotient of zero costs 1; one of infinity has none.
    assert cost_of_floats(768, (0x3f800000, 0x40400000)) == 2 and cost_of_floats(65535, (1, 0x7f7fffff)) == 1
    assert cost_of_floats(256, (0x7f7fffff, 1)) is None and cost_of_floats(256, (3, 1)) == 3
    # The sample line with its pairs as readings: "a pair tone to all the loadings", tidy, and another line.
    read_off = SAMPLE[:15] + bytes.fromhex("09 00 40400000 3f800000 0f 0000000000000064 0a 01 40a00000 02 0000000000000064") + SAMPLE[45:]
    assert check(read_off) == (3, 3, 0) and tidy(read_off, 65) == read_off and not read(read_off).same(read(SAMPLE))
    assert loading_of(read_off).powers == loading_of(SAMPLE).powers and limits(read_off, 6) == limits(SAMPLE, 6)
    assert all(refusal(read_off[:n]) == (2, n) for n in range(65))

    def changed(place, data):
        return refusal(read_off[:place] + bytes.fromhex(data) + read_off[place + len(data) // 2:])
    # 12 "placed at that float and judged where range 4 would be"; 13 "placed at the first float and judged straight after the last".
    for data in ("00000000", "80000000", "80000001", "bf800000", "7f800000", "ff800000", "7fc00000", "7f800001", "ffffffff"):
        assert [changed(place, data) for place in (17, 21, 36)] == [(12, 17), (12, 21), (12, 36)]
    assert changed(17, "00000000" * 2) == (12, 17) and changed(16, "00" + "7f800000" * 2 + "ff") == (12, 17)
    assert changed(17, "4b7ffe02") == (13, 17) and changed(36, "4b7ffe02") == (13, 36) and changed(21, "00000001") == (13, 17)
    assert changed(17, "4b7ffe02" + "3f800000" + "10") == (13, 17) and changed(17, "4b7ffe02" + "00000000" + "10") == (12, 21)
    assert changed(36, "4b7ffe02" + "10") == (13, 36) and changed(36, "4b7ffe01" + "10") == (4, 40) and changed(25, "10") == (4, 25)
    # "5 and then 6 are judged at the tone operand, before the operands after it".
    assert changed(16, "03" + "00000000") == (5, 16) and changed(35, "00" + "00000000") == (6, 35)


def rested(budget, rest_0=2, rest_1=1, after=b""):
    """The sample line with a rest on tone 0 and on tone 1, straight after each, and what else stands before the end."""
    rests = [bytes([0x0b, tone]) + rest.to_bytes(4, "big") for tone, rest in enumerate((rest_0, rest_1))]
    return sample(budget)[:30] + rests[0] + SAMPLE[30:45] + rests[1] + SAMPLE[45:60] + after + b"\x07"


def rests_selftest():
    # "The power at no bits becomes the rest, 0 where none is given, and the first step shrinks by it".
    line = loading_of(rested(39))
    assert line.powers == [[2, 3, 9, 21, 45, 93], [1, 5, 15], [0, 3, 15, 63]] and line.limits == [5, 2, 3]
    assert [steps[0] for steps in line.steps] == [(1, 0), (4, 1), (3, 2)] and line.steps[0][1] == (6, 0)
    # "Tables of no bits, target 0 and every sum include rests".
    most = {3: ([0, 0, 0], 3), 4: ([1, 0, 0], 4), 7: ([1, 0, 1], 7), 11: ([1, 1, 1], 11), 38: ([2, 2, 1], 27), 39: ([3, 2, 1], 39)}
    for budget, (table, power) in most.items():
        assert loading_of(rested(budget)).adding() == table
        assert call("most", None, rested(budget), 27)[0] == (sum(table), power)
    assert call("target", 0, rested(3), 27) == ((0, 3), bytes([0] * 8 + [2] + [0] * 8 + [1] + [0] * 9))
    assert call("refit", bytes([0, 2, 3]), rested(39), 27)[0] == (6, 39, 3) and loading_of(rested(3)).refit([0, 2, 3]) == ([0, 0, 0], 7)
    # "A silenced tone sends nothing", and its rest is not counted by 16, wherever it is silenced.
    silence = bytes.fromhex("060000000001")
    assert loading_of(rested(3, after=silence)).powers == [[0], [1, 5, 15], [0, 3, 15, 63]]
    assert [refusal(rested(budget, after=silence)) for budget in (1, 0)] == [(0, 0), (16, 0)]
    assert refusal(sample(1)[:15] + silence + rested(1)[15:]) == (0, 0)
    # 16 "in every call that reads a sheet, after 7 and before 8"; 7 before it.
    for words in (("most", None), ("target", 0), ("refit", b""), ("step", b"\xff")):
        assert refused_call(*words, rested(2), 0) == (16, 0)
    assert refused_limits(rested(2), 0) == refused_tidy(rested(2), 0) == refusal(rested(2)) == (16, 0)
    assert refusal(rested(2) + b"\0") == (7, 73) and refusal(rested(2)[:72]) == (2, 72) and refused_tidy(rested(3), 72) == (8, 0)
    # 15 "the rest is not below the cost or is above the mask, placed at the rest", of silenced tones too.
    assert [refusal(rested(39, rest)) for rest in (2, 3, 2**32 - 1)] == [(0, 0), (15, 32), (15, 32)]
    assert [refusal(rested(39, 2, rest, silence)) for rest in (4, 5)] == [(0, 0), (15, 53)]
    assert refusal(sample(39)[:15] + silence + rested(39, 3)[15:]) == (15, 38)
    low = SAMPLE[:29] + b"\2" + rested(39, 2)[30:]
    assert refusal(low) == (0, 0) and refusal(low[:29] + b"\1" + low[30:]) == (15, 32)
    # 14 "the tone is in range but not yet described or has had a 0B already, even of rest 0, placed at the tone"; 5 before it.
    rest = bytes.fromhex("0b00ffffffff")
    assert refusal(SAMPLE[:15] + rest + SAMPLE[15:]) == (14, 16) and refusal(SAMPLE[:15] + b"\x0b\3" + rest[2:] + SAMPLE[15:]) == (5, 16)
    assert [refusal(rested(39, first, 1, rest)) for first in (0, 2)] == [(14, 73), (14, 73)]
    # "Tidying puts 0B straight after its tone and drops one whose rest is 0".
    assert tidy(rested(39), 73) == rested(39) and tidy(rested(39, 0, 0), 61) == SAMPLE
    assert tidy(rested(39, 0), 67) == SAMPLE[:45] + bytes.fromhex("0b0100000001") + SAMPLE[45:]
    assert tidy(SAMPLE[:60] + rested(39)[51:57] + rested(39)[30:36] + silence + b"\7", ROOM) == rested(39, after=silence)
    # A line with a rest of 0 and one without are the same.
    assert read(rested(39, 0, 0)).same(read(SAMPLE)) and not read(rested(39)).same(read(SAMPLE))


def refused_tidy(*words):
    try:
        tidy(*words)
    except Refused as r:
        return r.args


def budgets_answer(sheet, *entries, room=ROOM):
    """Bits and power of each budget, or the refusal."""
    try:
        return pairs_of(budgets(sheet, b"".join(entry.to_bytes(8, "big") for entry in entries), room))
    except Refused as r:
        return r.args


def refused_list(listed):
    try:
        entries_of(listed)
    except Refused as r:
        return r.args


def budgets_selftest():
    # The cases below "Sample line" in one list, "equal ones allowed"; "the list replaces the sheet's budget".
    cases = {2: (0, 0), 3: (1, 3), 38: (5, 27), 39: (6, 39), 50: (6, 39), 51: (7, 51), 170: (9, 123), 171: (10, 171), 2**47: (10, 171)}
    for own in (0, 39, 2**47):
        assert budgets_answer(sample(own), *cases) == list(cases.values())
        assert budgets_answer(sample(own), 39, 39, 39) == [(6, 39)] * 3
    assert with_budget(sample_in_tenths(100), 5) == sample_in_tenths(100)[:6] + bytes(7) + b"\5" + sample_in_tenths(100)[14:]
    assert budgets(SAMPLE, bytes(7) + b"\x27", 12) == bytes.fromhex("00000006 0000000000000027")
    # "empty, not a multiple of 8 bytes, longer than 32 entries", "judged first with place 0".
    assert [refused_list(bytes(n)) for n in (0, 7, 9, 257, 264)] == [(4, 0)] * 5 and entries_of(bytes(256)) == [0] * 32
    assert refused_list(bytes(7) + b"\2" + bytes(7) + b"\1" + b"\0") == (4, 0)
    # "the first entry that is too large or below the one before it".
    over = 2**47 + 1
    lists = {(over,): 0, (1, over): 1, (2, 1): 1, (1, 2, 1): 2, (over, 1): 0, (2, 1, over): 1, (1, over, 1): 1, (1, 2, 2, over): 3}
    assert all(budgets_answer(SAMPLE, *entries) == (4, place) for entries, place in lists.items())
    # "straight after 7, then 16, judged against the first budget, then 8".
    assert budgets_answer(SAMPLE + b"\0", 2, 1) == (7, 61) and budgets_answer(rested(2), 2, 1, room=0) == (4, 1)
    assert budgets_answer(rested(2**47), 2, 3, room=0) == (16, 0) and budgets_answer(rested(0), 3, 4, room=23) == (8, 0)
    assert budgets_answer(rested(0), 3, 4, room=24) == [(0, 3), (1, 4)]


def twin(command):
    """The twin of a command's bytes, with the same tone."""
    return named(command[0], command[1], 2) + command[2:]


def commands_of(sheet):
    """The commands of an accepted sheet, each with its operands."""
    out, at = [], 0
    while at < len(sheet):
        width = 1 + sum(w for _, w in OPERANDS[sheet[at]])
        out.append(sheet[at:at + width])
        at += width
    return out


def twinned(sheet):
    """A sheet of short commands with the twin of each that has one."""
    return b"".join(twin(c) if c[0] in AFTER_TONE else c for c in commands_of(sheet))


def tone_of(command):
    """The tone of a command's bytes; None of a command without."""
    if command[0] in TONED:
        _, width = TONED[command[0]]
        return number(command[1:1 + width])


def twins_selftest():
    # "a twin, 10 (hex) higher": of the commands with a tone byte, and of no other.
    assert sorted(TONED) == [4, 5, 9, 10, 11, 12, 0x14, 0x15, 0x19, 0x1a, 0x1b, 0x1c] == sorted({*OPERANDS} - {1, 2, 3, 6, 7, 8})
    assert all(refusal(SAMPLE[:15] + bytes([byte]) + SAMPLE[15:]) == (3, 15) for byte in range(256) if byte not in (6, 7, *TONED))
    # A sheet of twins says what the sheet of short commands says, and "tidying uses the short command for tones up to 255".
    read_off = SAMPLE[:15] + bytes.fromhex("09 00 40400000 3f800000 0f 0000000000000064 0a 01 40a00000 02 0000000000000064") + SAMPLE[45:]
    for sheet in (SAMPLE, rested(39), ranged(39), read_off):
        long = twinned(sheet)
        assert read(long).same(read(sheet)) and tidy(long, len(sheet)) == sheet and check(long) == check(sheet)
        assert len(long) > len(sheet) and all(refusal(long[:n]) == (2, n) for n in range(len(long)))
    # Tones 255 and 256 of a line of 1,024, and the sizes round them; high byte first.
    def at(size, *commands):
        return b"\x01" + size.to_bytes(2, "big") + SAMPLE[3:15] + b"".join(commands) + b"\x07"
    pairs = {tone: named(4, tone) + SAMPLE[17:30] for tone in (0, 1, 254, 255, 256, 257, 258, 512, 1023, 1024, 65535)}
    assert [len(pairs[tone]) for tone in (255, 256)] == [15, 16] and pairs[258][:3] == bytes([0x14, 1, 2])
    assert tidy(at(1024, pairs[256], twin(pairs[255])), 47) == at(1024, pairs[255], pairs[256])
    for size, tone in ((256, 255), (257, 256), (1024, 1023)):
        assert refusal(at(size, pairs[tone])) == (0, 0) and refusal(at(size, named(4, size, 2) + SAMPLE[17:30])) == (5, 16)
    assert refusal(at(1, pairs[256])) == (5, 16) and refusal(at(1024, pairs[65535])) == (5, 16)
    assert [refusal(at(size)) for size in (0, 1, 1024, 1025)] == [(4, 1), (0, 0), (0, 0), (4, 1)]
    # A tone is one tone by either width, at the first byte of its number; a rest by either.
    for first in (pairs[1], twin(pairs[1])):
        for second in (pairs[1], twin(pairs[1])):
            assert refusal(at(2, first, second)) == (6, 16 + len(first))
        for rest in (named(0x0b, 1), named(0x0b, 1, 2)):
            assert refusal(at(2, first, rest + bytes(3) + b"\2")) == (0, 0) and refusal(at(2, rest + bytes(4), first)) == (14, 16)
            assert refusal(at(2, first, rest + bytes(3) + b"\3")) == (15, 15 + len(first + rest))
            for again in (named(0x0b, 1), named(0x0b, 1, 2)):
                assert refusal(at(2, first, rest + bytes(4), again + bytes(4))) == (14, 20 + len(first + rest))
    # "a silence word up to 31".
    assert [refusal(at(1024, bytes([6, word]) + bytes(4))) for word in (8, 31, 32, 255)] == [(0, 0), (0, 0), (4, 16), (4, 16)]
    assert read(at(1024, b"\6\x1f\x80\0\0\1")).silenced == {992, 1023} and refusal(at(1023, b"\6\x1f\x80\0\0\0")) == (5, 17)


def ranged(budget, high_0=6, high_2=2, after=b""):
    """The sample line with a high noise on tone 0 and on tone 2, straight after each, and what else stands before the end."""
    highs = [named(0x0c, tone) + high.to_bytes(2, "big") for tone, high in ((0, high_0), (2, high_2))]
    return sample(budget)[:30] + highs[0] + SAMPLE[30:60] + highs[1] + after + b"\x07"


def ranges_selftest():
    # "Command 0C (twin 1C) gives tone and high noise, 2 bytes, at least the tone's noise".
    assert read(ranged(39)).highs == {0: 6, 2: 2} and check(ranged(39)) == (3, 3, 0) and len(ranged(39)) == 69
    assert [refusal(ranged(39, high)) for high in (0, 2, 3, 65535)] == [(4, 32), (4, 32), (0, 0), (0, 0)]
    assert all(refusal(ranged(39)[:n]) == (2, n) for n in range(69))
    # "only for tones of 04, 05 or their twins": of others 4 at the tone, before the high noise is judged.
    for reading in ("09 00 40400000 3f800000 0f 0000000000000064", "0a 00 40400000 0f 0000000000000064"):
        for command in (bytes.fromhex(reading), twin(bytes.fromhex(reading))):
            for high in (named(0x0c, 0), named(0x0c, 0, 2)):
                assert refusal(SAMPLE[:15] + command + high + b"\0\6" + SAMPLE[30:]) == (4, 16 + len(command))
                assert refusal(SAMPLE[:15] + command + high + b"\0\0" + SAMPLE[30:]) == (4, 16 + len(command))
    # "A tone undescribed or given twice is 14, as in W6", before the high noise is judged, and even after one that is dropped; 5 before it.
    for high in (b"\0\0", b"\0\6"):
        assert refusal(SAMPLE[:15] + b"\x0c\0" + high + SAMPLE[15:]) == (14, 16)
        assert refusal(SAMPLE[:15] + b"\x0c\3" + high + SAMPLE[15:]) == (5, 16)
        for first in (3, 6):
            for again in (named(0x0c, 0), named(0x0c, 0, 2)):
                assert refusal(ranged(39, first, after=again + high)) == (14, 69)
    # "anywhere after the tone": before and after its rest; "tidying puts it after the tone's rest, and drops it where it equals the noise".
    rest, high = bytes.fromhex("0b0000000002"), bytes.fromhex("0c000006")
    both = SAMPLE[:30] + rest + high + SAMPLE[30:]
    for given in (rest + high, high + rest):
        for sheet in (SAMPLE[:30] + given + SAMPLE[30:], SAMPLE[:60] + twinned(given) + b"\7"):
            assert tidy(sheet, len(both)) == both and read(sheet).same(read(both))
    assert tidy(ranged(39), 69) == ranged(39) and tidy(ranged(39, 3, 1), 61) == SAMPLE and read(ranged(39, 3, 1)).same(read(SAMPLE))
    assert not read(ranged(39)).same(read(SAMPLE)) and not read(ranged(39, 7)).same(read(ranged(39)))
    # 15 goes by the noise, and not by a high one before it.
    for power, answer in [(2, (0, 0)), (3, (15, 36)), (5, (15, 36))]:
        assert refusal(SAMPLE[:30] + high + b"\x0b\0" + power.to_bytes(4, "big") + SAMPLE[30:]) == answer
    # "All other loadings ignore 0C".
    for budget in (0, 3, 38, 39, 171):
        for words in (("most", None), ("target", 1), ("refit", bytes([0, 2, 3])), ("step", bytes([5, 2, 3]))):
            assert refused_call(*words, ranged(budget), 27) == refused_call(*words, sample(budget), 27)
            assert refused_call(*words, sample(budget), 27) or call(*words, ranged(budget), 27) == call(*words, sample(budget), 27)
        assert limits(ranged(budget), 6) == limits(SAMPLE, 6)
        assert budgets_answer(ranged(budget), 0, 3, 38, 39, 171) == budgets_answer(SAMPLE, 0, 3, 38, 39, 171)


def guarded_selftest():
    # "A guarded loading uses every high noise", and "also answers the total bits of the plain loading at the low noises".
    assert guarded_loading_of(ranged(39)).powers == [[0, 6, 18, 42, 90], [0, 5, 15], [0, 6, 30]]
    cases = {2: ([0, 0, 0], 0, 0), 3: ([0, 0, 0], 0, 1), 5: ([0, 1, 0], 5, 1), 38: ([1, 2, 1], 27, 5), 39: ([2, 2, 1], 39, 6),
             171: ([4, 2, 2], 135, 10)}
    for budget, (table, power, plain) in cases.items():
        answers, out = call("guarded", None, ranged(budget), 27)
        assert answers == (sum(table), power, plain) and list(out[::9]) == table
        # Without a range it is the loading for most bits.
        (bits, power), out = call("most", None, sample(budget), 27)
        assert call("guarded", None, sample(budget), 27) == call("guarded", None, ranged(budget, 3, 1), 27) == ((bits, power, bits), out)
    assert refused_call("guarded", None, ranged(39), 26) == (8, 0) and refused_call("guarded", None, ranged(39)[:68], 0) == (2, 68)
    # "For every choice of noises inside the ranges its table keeps limits and budget, and no table with that property carries more bits, or
    # as many with less power at the high noises": every choice and every table.
    import itertools, random
    dice = random.Random(3)
    for _ in range(60):
        line = Line()
        line.size, line.gap, line.budget = dice.randint(1, 3), dice.randint(256, 600), dice.randint(0, 120)
        for tone in range(line.size):
            line.tones[tone] = (dice.choice([4, 5]), dice.randint(1, 5), dice.randint(1, 3), dice.randint(0, 4), dice.randint(0, 90))
            line.highs[tone] = noise_of(line, tone) + dice.randint(0, 3)
            line.rests[tone] = dice.randint(0, min(cost_of(line, tone) - 1, line.tones[tone][-1]))
        line.silenced = set(dice.sample(range(line.size), dice.randint(0, line.size // 2)))
        line.budget += sum(line.rests.values())
        ranges = [range(noise_of(line, tone), line.highs[tone] + 1) for tone in line.tones]
        chosen = [Loading(with_noises(line, dict(enumerate(noises)))) for noises in itertools.product(*ranges)]
        high, within = Loading(with_noises(line, line.highs)), []
        for table in itertools.product(*(range(cap + 1) for *_, cap, _ in line.tones.values())):
            if all(all(map(int.__le__, table, one.limits)) and one.total(table) <= line.budget for one in chosen):
                within.append((-sum(table), high.total(table), list(table)))
        best = high.adding()
        assert (-sum(best), high.total(best), best) in within
        assert min(within)[:2] == (-sum(best), high.total(best))


def selftest():
    loading_selftest()
    limits_selftest()
    tenths_selftest()
    floats_selftest()
    readings_selftest()
    rests_selftest()
    budgets_selftest()
    twins_selftest()
    ranges_selftest()
    guarded_selftest()
    assert len(SAMPLE) == 61
    # "Gap 256; tone 0 pair, noise 3, cap 15; tone 1 pair, noise 5, cap 2; tone 2 single, noise 1, cap 7; gains 1,
    # masks 100"; "the sample at 39".
    line = read(SAMPLE)
    assert (line.size, line.gap, line.budget, line.silenced) == (3, 256, 39, set())
    assert line.tones == {0: (4, 3, 1, 15, 100), 1: (4, 5, 1, 2, 100), 2: (5, 1, 1, 7, 100)}
    assert check(SAMPLE) == (3, 3, 0)
    # "empty sheet: refusal 2, place 0".
    assert refusal(b"") == (2, 0)
    # "Bytes in all".
    totals = {c: 1 + sum(w for _, w in ops) for c, ops in OPERANDS.items()}
    assert totals == {1: 3, 2: 3, 3: 9, 4: 15, 5: 15, 6: 6, 7: 1, 8: 2, 9: 19, 10: 15, 11: 6, 12: 4, 20: 16, 21: 16, 25: 20, 26: 16,
                      27: 7, 28: 5}
    # "tidying a tidy sheet returns it": the sample is tidy.
    assert tidy(SAMPLE, 61) == SAMPLE and tidy(SAMPLE, ROOM) == SAMPLE
    # "A sheet may be 32,768 bytes".
    whole = SAMPLE[:15] + twin(SAMPLE[15:30]) + bytes.fromhex("060000000000") * 5456 + b"\x07"
    assert len(whole) == 32768 and refusal(whole) == (0, 0) and refusal(whole + b"\x07") == (1, 0)
    # "the sheet ends where a command or the rest of its operands should stand; place its length".
    assert all(refusal(SAMPLE[:n]) == (2, n) for n in range(61))
    # "Bytes follow the end command; place the first of them".
    assert refusal(SAMPLE + b"\x00\x00") == (7, 61)
    # "a silenced tone stays described"; "Tidying keeps the line", here over shuffled commands.
    import random
    dice = random.Random(1)
    for _ in range(2000):
        size = dice.choice([1, 3, 31, 32, 33, 64, 255, 256, 257, 300, 1023, 1024])
        commands = []
        for tone in dice.sample(range(size), dice.randint(0, min(size, 9))):
            kind = dice.choice([4, 5, 9, 10])
            ends = {2: (1, 65535), 4: (0x3f000000, 0x3fffffff)}
            levels = [dice.randint(*ends[w]).to_bytes(w, "big") for _, w in AFTER_TONE[kind][:-2]]
            commands.append(named(kind, tone, dice.choice([None, 2])) + b"".join(levels) + bytes([dice.randint(0, CAPS[kind][1])])
                            + dice.randint(0, 2**47).to_bytes(8, "big"))
        for _ in range(dice.randint(0, 6)):
            word = dice.choice([dice.randint(0, LAST_WORD), dice.randint(0, (size - 1) // 32)])
            within = max(0, min(32, size - 32 * word))
            commands.append(bytes([6, word]) + (dice.getrandbits(32) & dice.getrandbits(32) & ((1 << within) - 1)).to_bytes(4, "big"))
        dice.shuffle(commands)
        gap = dice.choice([b"\x02" + dice.randint(256, 65535).to_bytes(2, "big"), bytes([8, dice.randint(0, 240)])])
        start = b"\x01" + size.to_bytes(2, "big") + gap + SAMPLE[6:15]
        line = read(start + b"".join(commands) + b"\x07")
        # Rests anywhere after their tones; at most 9 of at most 4, which the budget 39 allows.
        rests = {tone: dice.randint(0, min(cost_of(line, tone) - 1, numbers[-1], 4)) for tone, numbers in line.tones.items() if tone % 3}
        for tone, rest in rests.items():
            own = next(i for i, c in enumerate(commands) if tone_of(c) == tone)
            commands.insert(dice.randint(own + 1, len(commands)), named(0x0b, tone, dice.choice([None, 2])) + rest.to_bytes(4, "big"))
        # High noises anywhere after their tones, before their rests or after them.
        noises = {tone: levels[0] for tone, (kind, *levels) in line.tones.items() if kind in (4, 5) and tone % 5}
        highs = {tone: dice.choice([noise, dice.randint(noise, 65535)]) for tone, noise in noises.items()}
        for tone, high in highs.items():
            own = next(i for i, c in enumerate(commands) if tone_of(c) == tone)
            commands.insert(dice.randint(own + 1, len(commands)), named(0x0c, tone, dice.choice([None, 2])) + high.to_bytes(2, "big"))
        sheet = start + b"".join(commands) + b"\x07"
        out = tidy(sheet, ROOM)
        assert read(out).rests == {tone: rest for tone, rest in rests.items() if rest > 0}
        assert read(out).highs == {tone: high for tone, high in highs.items() if high > noises[tone]}
        assert out[3:].startswith(gap) and len(out) <= len(sheet)
        assert read(out).same(read(sheet)) and tidy(out, len(out)) == out and check(out) == check(sheet)
        assert set(read(out).tones) == {tone_of(c) for c in commands} - {None}
        # "the short command for tones up to 255".
        assert all((c[0] < 0x10) == (tone_of(c) <= 255) for c in commands_of(out) if c[0] in TONED)


if __name__ == "__main__":
    selftest()
    if sys.argv[1:] == ["--selftest"]:
        print("ok")
    else:
        sys.stdout.write(expected(sys.stdin.read()))
