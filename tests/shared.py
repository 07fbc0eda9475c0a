"""The package's shared library, called from Python: a fresh sheet, each call on it, refusals that keep every byte, numbers with a
sign, claims that are long, equations with a modulus of their own, threads that share a sheet, numbers of two words, sheets for wanted
answers, the version.

usage: tests/shared.py LIBRARY HEADER
"""
import ctypes
import math
import re
import sys
import threading

Words = ctypes.POINTER(ctypes.c_uint32)


class Sheet(ctypes.Structure):
    _fields_ = [("numbers", ctypes.c_uint32 * 291)]


library = ctypes.CDLL(sys.argv[1])
library.milebadger_version.restype = ctypes.c_uint32
for name, arguments in {
    "open": [ctypes.POINTER(Sheet), Words, ctypes.c_size_t],
    "add": [ctypes.POINTER(Sheet), Words, ctypes.c_size_t],
    "add_text": [ctypes.POINTER(Sheet), ctypes.c_char_p, ctypes.c_size_t],
    "strike": [ctypes.POINTER(Sheet), ctypes.c_uint32],
    "answer": [ctypes.POINTER(Sheet), Words, ctypes.c_size_t],
    "mark": [ctypes.POINTER(Sheet), Words, ctypes.c_size_t],
    "class": [ctypes.POINTER(Sheet), Words, ctypes.c_size_t, ctypes.POINTER(ctypes.c_uint8), ctypes.c_size_t],
    "reason": [ctypes.POINTER(Sheet), Words, ctypes.c_size_t, Words, ctypes.c_size_t, Words, ctypes.c_size_t],
}.items():
    function = getattr(library, "milebadger_" + name)
    function.argtypes = arguments
    function.restype = ctypes.c_int64

MODULUS, UNKNOWNS, COEFFICIENT, RIGHT, HEAD, ENTRY, MULTIPLIER = range(1, 8)
MINUS_COEFFICIENT, MINUS_RIGHT, OWN_MODULUS, TOP = 10, 11, 12, 13

library.milebadger_congruence.argtypes = [ctypes.c_int32, ctypes.c_int32, ctypes.c_uint32, Words, ctypes.c_size_t]
library.milebadger_congruence.restype = ctypes.c_int64
library.milebadger_sheet_for.argtypes = [ctypes.c_uint32, ctypes.c_uint32, Words, ctypes.c_size_t, Words, ctypes.c_size_t]
library.milebadger_sheet_for.restype = ctypes.c_int64


def words(*pairs):
    """Memory with a word for each kind and number, and one of kind 13 in front of it where the number takes more than 28 bits."""
    places = []
    for kind, number in pairs:
        if number >> 28:
            places.append(TOP << 28 | number >> 28)
        places.append(kind << 28 | number & 0xFFFFFFF)
    return (ctypes.c_uint32 * len(places))(*places)


def numbers_in(places):
    """The kinds and numbers of words."""
    pairs, top = [], 0
    for place in places:
        if place >> 28 == TOP:
            top = place & 15
        else:
            pairs.append((place >> 28, top << 28 | place & 0xFFFFFFF))
            top = 0
    return pairs


def equation(*numbers):
    """Those below 0 with a minus sign."""
    kinds = [(MINUS_COEFFICIENT, COEFFICIENT)] * (len(numbers) - 1) + [(MINUS_RIGHT, RIGHT)]
    return words(*((kind[number >= 0], abs(number)) for kind, number in zip(kinds, numbers)))


def own(q, *numbers):
    """An equation with a modulus of its own."""
    both = [*words((OWN_MODULUS, q)), *equation(*numbers)]
    return (ctypes.c_uint32 * len(both))(*both)


def text(typed):
    return typed, len(typed)


def block(*numbers, kind=ENTRY):
    return words((HEAD, numbers[0]), *((kind, x) for x in numbers[1:]))


def same(seen, expected):
    if seen != expected:
        sys.exit(f"shared.py: {seen} in place of {expected}")


def call(name, *arguments):
    return getattr(library, "milebadger_" + name)(ctypes.byref(sheet), *arguments)


def lend(name, memory):
    return call(name, memory, len(memory))


def refused(result, name, *arguments):
    """The call is refused so, and sheet and memory keep every byte."""
    before = bytes(sheet), [bytes(x) for x in arguments if isinstance(x, ctypes.Array)]
    same(call(name, *arguments), result)
    same((bytes(sheet), [bytes(x) for x in arguments if isinstance(x, ctypes.Array)]), before)


with open(sys.argv[2], encoding="utf-8") as header:
    version = re.search(r"^#define MILEBADGER_VERSION (\d+)$", header.read(), re.MULTILINE)[1]
same(library.milebadger_version(), int(version))

sheet = Sheet()
out = (ctypes.c_uint32 * 273)(*([0xC0DEC0DE] * 273))
refused(-4, "answer", out, 273)
refused(-4, "strike", 0)
refused(-4, "add_text", *text(b"x1 = 0"))
refused(-4, "class", words((HEAD, 0)), 1, (ctypes.c_uint8 * 1)(0xC0), 1)
refused(-4, "reason", words((HEAD, 0)), 1, (ctypes.c_uint32 * 3)(7, 7, 7), 3, out, 273)
refused(-2, "open", words((MODULUS, 1), (UNKNOWNS, 2)), 2)
refused(-17, "open", words((TOP, 1), (UNKNOWNS, 2)), 2)
refused(-17, "open", words((MODULUS, 4), (UNKNOWNS, 2), (TOP, 1)), 3)
refused(-4, "add", words((TOP, 1)), 1)
same(lend("open", words((MODULUS, 4), (UNKNOWNS, 2))), 0)
refused(-7, "strike", 0)
refused(-7, "strike", 1)
same(lend("add", equation(1, 2, 0)), 1)
refused(-1, "add", equation(1, 0), 2)
refused(-1, "add", equation(-1, 0), 2)
refused(-1, "add", words((COEFFICIENT, 1), (MINUS_RIGHT, 2), (RIGHT, 0)), 3)
refused(-1, "add", words((COEFFICIENT, 1), (COEFFICIENT, 2), (MINUS_COEFFICIENT, 0)), 3)
refused(-16, "strike", 2)
refused(-16, "strike", 0xFFFFFFFF)
refused(-8, "answer", out, 6)
same(lend("answer", out), 7)
same(out[:7], block(3, 0, 0, 2, 1, 0, 2)[:])
same(out[7:], [0xC0DEC0DE] * 266)
# the answer is right but long: 0 2 is twice 2 1
same(call("mark", out, 7), 2)
same(lend("mark", block(2, 0, 0, 2, 3)), 1)
same(lend("mark", block(2, 0, 0, 0, 2)), 0)
refused(-1, "mark", block(2, 0, 0, 0), 4)
refused(-1, "mark", block(1, 0, 0, kind=MINUS_RIGHT), 3)
refused(-6, "mark", block(1, 0, 4), 3)

# Those claims as a class: one byte each, and the bytes past them are kept. A stray word, and a claim that breaks off, are claims too.
claims = [block(2, 0, 0, 2, 3), block(2, 0, 0, 0, 2), block(1, 0, 4), words((ENTRY, 0)), words((HEAD, 0))]
claims += [block(3, 0, 0, 0, 2, 2, 1), block(2, 0, 0, 0)]
together = (ctypes.c_uint32 * sum(map(len, claims)))(*(word for claim in claims for word in claim))
marks = (ctypes.c_uint8 * 9)(*[0xC0] * 9)
refused(-8, "class", together, len(together), marks, 6)
same(call("class", together, len(together), marks, 7), 7)
same(marks[:], [1, 0, 106, 101, 0, 2, 101, 0xC0, 0xC0])
singly = [lend("mark", claim) for claim in claims]
same(marks[:7], [mark if mark >= 0 else 100 - mark for mark in singly])
refused(-14, "class", words(*[(HEAD, 0)] * 65), 65, marks, 9)
same(call("class", words(), 0, marks, 0), 0)
same(marks[:], [1, 0, 106, 101, 0, 2, 101, 0xC0, 0xC0])


def reason(*numbers):
    """The number of this claim's reason, its step, its equation, and the kinds and numbers of its words. Nothing else is written."""
    claim, at, shown = block(*numbers), (ctypes.c_uint32 * 4)(*[7] * 4), (ctypes.c_uint32 * 17)(*[0xC0DE] * 17)
    result = call("reason", claim, len(claim), at, 4, shown, 17)
    same((at[3], shown[at[2] :]), (7, [0xC0DE] * (17 - at[2])))
    return result, at[0], at[1], [(word >> 28, word & 0xFFFFFFF) for word in shown[: at[2]]]


# Why claims about the sheet fail or are long, and a claim that passes. From 0 0 the step 0 2 leads to two of four solutions.
same(reason(0), (1, 0, 0, [(ENTRY, 0), (ENTRY, 0)]))
same(reason(1, 1, 0), (3, 0, 1, []))
same(reason(3, 0, 0, 2, 1, 1, 0), (4, 2, 1, []))
same(reason(2, 0, 0, 2, 3), (0, 0, 0, []))
same(reason(3, 0, 0, 2, 1, 0, 2), (6, 2, 0, []))
same(reason(3, 0, 0, 0, 2, 2, 1), (6, 1, 0, []))
same(reason(4, 0, 0, 0, 0, 2, 3, 2, 3), (6, 1, 0, []))
missed = reason(2, 0, 0, 0, 2)
same((missed[:3], missed[3] in ([(ENTRY, 2), (ENTRY, 1)], [(ENTRY, 2), (ENTRY, 3)])), ((5, 0, 0), True))
at, shown = (ctypes.c_uint32 * 3)(7, 7, 7), (ctypes.c_uint32 * 2)(8, 8)
refused(-1, "reason", block(1, 0), 2, at, 3, shown, 2)
refused(-6, "reason", block(1, 0, 4), 3, at, 3, shown, 2)
refused(-8, "reason", block(0), 1, at, 3, shown, 1)
refused(-8, "reason", block(2, 0, 0, 2, 3), 5, at, 2, shown, 2)
same(call("reason", block(1, 1, 0), 3, at, 3, shown, 0), 3)
same((at[:], shown[:]), ([0, 1, 0], [8, 8]))
same(call("reason", block(3, 0, 0, 2, 1, 0, 2), 7, at, 3, shown, 0), 6)
same((at[:], shown[:]), ([2, 0, 0], [8, 8]))
refused(-8, "reason", block(3, 0, 0, 2, 1, 0, 2), 7, at, 2, shown, 2)

# Threads that ask for reasons on one sheet at the same time, each with memory of its own.
asked = [(0,), (1, 1, 0), (3, 0, 0, 2, 1, 1, 0), (2, 0, 0, 0, 2), (2, 0, 0, 2, 3), (3, 0, 0, 2, 1, 0, 2)]
expected, before, seen = [reason(*numbers) for numbers in asked], bytes(sheet), []


def ask(own):
    for turn in range(400):
        place = (own + turn) % len(asked)
        seen.append(reason(*asked[place]) == expected[place])


threads = [threading.Thread(target=ask, args=(own,)) for own in range(4)]
for thread in threads:
    thread.start()
for thread in threads:
    thread.join()
same((len(seen), all(seen), bytes(sheet)), (1600, True, before))

# The same equation once more: mod 4, -3 is 1, 268,435,454 is 2, and -8 is 0. So the sheet is that of the residues.
plain = Sheet.from_buffer_copy(sheet)
same(lend("add", equation(-3, 268435454, -8)), 2)
with_signs, sheet = sheet, plain
same(lend("add", equation(1, 2, 0)), 2)
same(bytes(with_signs), bytes(sheet))
same(call("strike", 0), 1)

for result, typed in {-11: b"2x1 = 0", -12: b"x3 = 0", -13: b"x1*x2 = 0"}.items():
    refused(result, "add_text", *text(typed))

# A copy goes its own way: 2x = 1 contradicts there, and is struck again.
first = Sheet.from_buffer_copy(sheet)
same(call("add_text", *text(b"2*x1 = 1")), 2)
same(lend("answer", out), 3)
same((out[0], out[1] >> 28, out[2] >> 28), (HEAD << 28, MULTIPLIER, MULTIPLIER))
c, d = (word & 0xFFFFFFF for word in out[1:3])
same(((c + 2 * d) % 4, 2 * c % 4, d % 4 == 0), (0, 0, False))
same(lend("mark", words((HEAD, 0))), 1)
same(reason(0), (0, 0, 0, []))
number, step, place, multipliers = reason(1, 0, 0)
same((number, step, place, [kind for kind, _ in multipliers]), (2, 0, 0, [MULTIPLIER, MULTIPLIER]))
c, d = (number for _, number in multipliers)
same(((c + 2 * d) % 4, 2 * c % 4, d % 4 == 0), (0, 0, False))
same(call("strike", 0), 1)
same(lend("mark", words((HEAD, 0))), 0)
sheet = first
same(lend("mark", block(2, 0, 0, 2, 3)), 1)

# A clock: mod 12, x = 2 mod 3 and, with a minus sign, x = 3 mod 4.
sheet = Sheet()
refused(-4, "add", own(3, 1, 2), 3)
same(lend("open", words((MODULUS, 12), (UNKNOWNS, 1))), 0)
for modulus in [0, 1, 5, 24]:
    refused(-15, "add", own(modulus, 1, 2), 3)
    refused(-1, "add", own(modulus, 1, 1, 2), 4)
refused(-1, "add", own(3, 1, 2), 2)
refused(-1, "add", words((OWN_MODULUS, 3), (OWN_MODULUS, 3), (COEFFICIENT, 1), (RIGHT, 2)), 4)
refused(-1, "add", words((COEFFICIENT, 1), (OWN_MODULUS, 3), (RIGHT, 2)), 3)
same(lend("add", own(3, 1, 2)), 1)
same(lend("answer", out), 3)
same(out[:3], block(2, 2, 3)[:])
same(lend("add", own(4, 1, -1)), 2)
same(lend("answer", out), 2)
same(out[:2], block(1, 11)[:])
same([lend("mark", block(1, 11)), lend("mark", block(2, 2, 3)), lend("mark", block(2, 11, 0))], [1, 0, 2])
same(reason(2, 11, 0), (6, 1, 0, []))
same(reason(1, 8), (3, 0, 2, []))
same(reason(2, 11, 6), (4, 1, 2, []))
# x = 1 mod 3 contradicts the first line; the multipliers go with 4x = 8, 3x = 9 and 4x = 4
same(lend("add", own(3, 1, 1)), 3)
number, step, place, multipliers = reason(1, 11)
same((number, step, place, [kind for kind, _ in multipliers]), (2, 0, 0, [MULTIPLIER] * 3))
c, d, e = (number for _, number in multipliers)
same(((4 * c + 3 * d + 4 * e) % 12, (8 * c + 9 * d + 4 * e) % 12 == 0), (0, False))
# without the first line there is a solution: those behind it close up, each with its own modulus
kept = Sheet.from_buffer_copy(sheet)
refused(-16, "strike", 4)
same(call("strike", 1), 2)
same(lend("answer", out), 2)
same(out[:2], block(1, 7)[:])
sheet = kept
same(call("strike", 3), 2)
# 12 itself is the plain line
plain = Sheet.from_buffer_copy(sheet)
same(lend("add", own(12, -1, 1)), 3)
with_modulus, sheet = sheet, plain
same(lend("add", equation(-1, 1)), 3)
same(bytes(with_modulus), bytes(sheet))
while lend("add", own(2, 1, 1)) != 16:
    pass
refused(-5, "add", own(2, 1, 1), 3)
refused(-15, "add", own(5, 1, 1), 3)

# Mod 6 without equations: which steps are superfluous, of two. 2 and 3 are not, though 1 alone would do.
sheet = Sheet()
same(lend("open", words((MODULUS, 6), (UNKNOWNS, 1))), 0)
for (first, second), (mark, step) in {(1, 2): (2, 2), (0, 1): (2, 1), (1, 1): (2, 1), (2, 3): (1, 0), (2, 4): (0, 0)}.items():
    same(lend("mark", block(3, 0, first, second)), mark)
    same(reason(3, 0, first, second)[:3], ({0: 5, 1: 0, 2: 6}[mark], step, 0))

# -1·t = 1 mod 65,535; and t = b, whose least solution is the residue of b.
pair = (ctypes.c_uint32 * 2)()
for (a, b, m), solution in {
    (-1, 1, 65535): 65534,
    (1, -2147483648, 65535): 32767,
    (1, 268435455, 65535): 4095,
    (1, -268435455, 65535): 61440,
    (1, -1, 2): 1,
}.items():
    same(library.milebadger_congruence(a, b, m, pair, 2), 1)
    same(pair[:], [solution, m])
same(library.milebadger_congruence(-4, 6, 12, pair, 2), 0)
same(library.milebadger_congruence(-4, 8, 12, pair, 1), -8)
same(library.milebadger_congruence(-4, 8, 1, pair, 2), -2)
same(pair[:], [1, 2])
for (a, b, m), solutions in {
    (5, 1, 65536): [52429, 65536],
    (-1, 1, 4294967295): [4294967294, 4294967295],
    (3, 6, 4294967295): [2, 1431655765],
    (2, 1, 4294967291): [2147483646, 4294967291],
}.items():
    same(library.milebadger_congruence(a, b, m, pair, 2), 1)
    same(pair[:], solutions)

# Moduli of 32 bits. x + y = -1 mod the largest: from 0 4294967294, with the step 1 4294967294.
largest = 4294967295
for modulus in [65536, largest]:
    sheet = Sheet()
    opening = words((MODULUS, modulus), (UNKNOWNS, 2))
    same(lend("open", opening), 0)
same(len(opening), 3)
refused(-17, "add", words((COEFFICIENT, 1), (TOP, 0), (COEFFICIENT, 1), (RIGHT, 1)), 4)
same(lend("add", equation(1, -4294967294, -1)), 1)
out = (ctypes.c_uint32 * 545)(*([0xC0DEC0DE] * 545))
refused(-8, "answer", out, 6)
same(lend("answer", out), 7)
same(numbers_in(out[:7]), [(HEAD, 2), (ENTRY, 0), (ENTRY, largest - 1), (ENTRY, 1), (ENTRY, largest - 1)])
same(out[7:], [0xC0DEC0DE] * 538)
same(call("mark", out, 7), 1)
same(lend("mark", block(2, 0, largest - 1, largest - 1, 1)), 1)
same(lend("mark", block(1, 0, largest - 1)), 0)
refused(-6, "mark", block(1, 0, largest), 4)
refused(-17, "mark", words((HEAD, 1), (ENTRY, 0), (TOP, 1)), 3)
# a class: a claim of two words in a head's place, a word of kind 13 there that is none, and a claim with one
marks = (ctypes.c_uint8 * 5)(*[0xC0] * 5)
claims = words((ENTRY, 1 << 28), (TOP, 1), (HEAD, 1), (ENTRY, 0), (TOP, 16), (HEAD, 0))
same((call("class", claims, len(claims), marks, 5), marks[:]), (4, [101, 117, 117, 0, 0xC0]))
# what a reason shows counts two words for each entry, though fewer are written
at, shown = (ctypes.c_uint32 * 3)(7, 7, 7), (ctypes.c_uint32 * 4)(8, 8, 8, 8)
refused(-8, "reason", block(0), 1, at, 3, shown, 3)
same(call("reason", block(0), 1, at, 3, shown, 4), 1)
same((at[:], numbers_in(shown[:3]), shown[3]), ([0, 0, 3], [(ENTRY, 0), (ENTRY, largest - 1)], 8))
# and so do multipliers: 3x = 1 has none mod a multiple of 3
sheet = Sheet()
same(lend("open", words((MODULUS, largest), (UNKNOWNS, 1))), 0)
same(lend("add", equation(3, 1)), 1)
refused(-8, "answer", out, 2)
count = call("answer", out, 3)
[(kind, head), (shown_kind, multiplier)] = numbers_in(out[:count])
same((kind, head, shown_kind, 3 * multiplier % largest, multiplier % largest == 0), (HEAD, 0, MULTIPLIER, 0, False))


def sheet_for(m, n, claim, room):
    """The result, and the words that were written to so much memory. Behind them it keeps its content, and at a refusal all of it."""
    memory = (ctypes.c_uint32 * max(room, 1))(*[0xC0DEC0DE] * max(room, 1))
    result = library.milebadger_sheet_for(m, n, claim, len(claim), memory, room)
    written = [place for place in memory if place != 0xC0DEC0DE]
    same(memory[:], written + [0xC0DEC0DE] * (len(memory) - len(written)))
    same(written == [] or result > 0, True)
    return result, written


def added(m, n, claim):
    """The numbers of the equations for this claim. They are added to a fresh sheet as they lie, and the claim passes there or is long."""
    global sheet
    count, written = sheet_for(m, n, claim, 2 * n * (n + 1))
    pairs, sheet = numbers_in(written), Sheet()
    lines = [pairs[i : i + n + 1] for i in range(0, len(pairs), n + 1)]
    same((len(lines), count <= n, max([x for _, x in pairs], default=0) < m), (count, True, True))
    same(lend("open", words((MODULUS, m), (UNKNOWNS, n))), 0)
    for held, line in enumerate(lines, 1):
        same([kind for kind, _ in line], [COEFFICIENT] * n + [RIGHT])
        same(lend("add", words(*line)), held)
    same(written, [place for line in lines for place in words(*line)])
    same(lend("mark", claim) in (1, 2), True)
    return [[x for _, x in line] for line in lines]


# Sheets for wanted answers: a unit times x + 2y = 0 mod 4, and 3x = 3 mod 6; everything, and nothing.
same(added(4, 2, block(2, 0, 0, 2, 3)) in ([[1, 2, 0]], [[3, 2, 0]]), True)
same([added(6, 1, claim) for claim in (block(2, 1, 2), block(3, 5, 0, 4), block(3, 3, 2, 2))], [[[3, 3]]] * 3)
same((added(12, 2, block(3, 7, 7, 1, 0, 0, 1)), added(12, 2, block(0))), ([], [[0, 0, 1]]))
# the twelve vectors from 1 2 2 with the step 6 4 3, of 1,728
lines = added(12, 3, block(2, 1, 2, 2, 6, 4, 3))
vectors = [(x, y, z) for x in range(12) for y in range(12) for z in range(12)]
solved = [v for v in vectors if all((sum(a * x for a, x in zip(line, v)) - line[3]) % 12 == 0 for line in lines)]
same(solved, sorted(((1 + 6 * t) % 12, (2 + 4 * t) % 12, (2 + 3 * t) % 12) for t in range(12)))
# x + y = -1 mod the largest modulus, whose numbers take two words; the claim with a step too much is long there
lines = added(largest, 2, block(2, 0, largest - 1, 1, largest - 1))
same([line for line in lines if line[0] != line[1] or (line[0] + line[2]) % largest], [])
same(math.gcd(largest, *(line[0] for line in lines)), 1)
same(lend("mark", block(3, 0, largest - 1, 1, largest - 1, 0, 0)), 2)
# refused, in the order of the questions; and the room is asked for whatever would be written
everything = block(3, 1, 1, 1, 0, 0, 1)
for m, n, claim, room, result in [
    (1, 0, words((TOP, 0)), 0, -2),
    (2, 0, words((TOP, 0)), 0, -3),
    (2, 17, words((TOP, 0)), 0, -3),
    (2, 2, words((HEAD, 1), (ENTRY, 2), (TOP, 1)), 0, -17),
    (2, 2, words((HEAD, 1), (ENTRY, 2)), 0, -1),
    (2, 2, words((HEAD, 18)), 12, -1),
    (2, 2, block(1, 2, 0), 0, -6),
    (2, 2, block(1, 1, 0), 11, -8),
    (2, 2, block(0), 11, -8),
    (2, 2, everything, 11, -8),
    (2, 2, everything, 0, -8),
    (2, 2, everything, 12, 0),
]:
    same(sheet_for(m, n, claim, room), (result, []))
