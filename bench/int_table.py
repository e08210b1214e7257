#!/usr/bin/env python3
"""Writes the tables of the tests of int_num: operations on integers at their edges, and what they answer.

The answers are computed here on Python's unbounded integers, from the rules of the LLVM Language Reference and of this
project (the causes of a division or a shift, and that a flag that is broken is a cause). Nothing is shared with the crate.

    python3 bench/int_table.py operations > crates/part_rows/src/integer_table.rt
    python3 bench/int_table.py others > crates/part_rows/src/other_integers.rt
    cd crates/part_rows && rt fmt
"""
import random
import sys

WIDTHS = [1, 7, 8, 31, 32, 63, 64]
NONE, OVERFLOW, SHIFT, DIVIDE, FLAG = range(5)
NSW, NUW, EXACT, DISJOINT, NNEG = 1, 2, 4, 8, 16


def ones(width):
    return (1 << width) - 1


def signed(width, bits):
    """Two's complement, by the sign bit."""
    return bits - (1 << width) if bits >> (width - 1) & 1 else bits


def outside(width, number):
    return number < -(1 << width) // 2 or number > ones(width) // 2


def arithmetic(width, flags, exact, exact_signed):
    if flags & NUW and not 0 <= exact <= ones(width):
        return OVERFLOW, 0
    if flags & NSW and outside(width, exact_signed):
        return OVERFLOW, 0
    return NONE, exact & ones(width)


def add(width, flags, a, b):
    return arithmetic(width, flags, a + b, signed(width, a) + signed(width, b))


def sub(width, flags, a, b):
    return arithmetic(width, flags, a - b, signed(width, a) - signed(width, b))


def mul(width, flags, a, b):
    return arithmetic(width, flags, a * b, signed(width, a) * signed(width, b))


def udiv(width, flags, a, b):
    if b == 0:
        return DIVIDE, 0
    if flags & EXACT and a % b:
        return FLAG, 0
    return NONE, a // b


def urem(width, flags, a, b):
    return (DIVIDE, 0) if b == 0 else (NONE, a % b)


def toward_zero(x, y):
    quotient = abs(x) // abs(y)
    return quotient if (x < 0) == (y < 0) else -quotient


def sdiv(width, flags, a, b):
    x, y = signed(width, a), signed(width, b)
    if y == 0 or outside(width, toward_zero(x, y)):
        return DIVIDE, 0
    quotient = toward_zero(x, y)
    if flags & EXACT and quotient * y != x:
        return FLAG, 0
    return NONE, quotient & ones(width)


def srem(width, flags, a, b):
    x, y = signed(width, a), signed(width, b)
    if y == 0 or outside(width, toward_zero(x, y)):
        return DIVIDE, 0
    return NONE, (x - toward_zero(x, y) * y) & ones(width)


def shl(width, flags, a, b):
    """`nuw` forbids to shift a one out, `nsw` to shift a bit out that differs from the result's sign."""
    if b >= width:
        return SHIFT, 0
    out, value = a << b >> width, a << b & ones(width)
    if flags & NUW and out != 0:
        return OVERFLOW, 0
    if flags & NSW and out != (ones(b) if value >> (width - 1) else 0):
        return OVERFLOW, 0
    return NONE, value


def lshr(width, flags, a, b):
    if b >= width:
        return SHIFT, 0
    if flags & EXACT and a & ones(b):
        return FLAG, 0
    return NONE, a >> b


def ashr(width, flags, a, b):
    if b >= width:
        return SHIFT, 0
    if flags & EXACT and a & ones(b):
        return FLAG, 0
    return NONE, signed(width, a) >> b & ones(width)


def bit_and(width, flags, a, b):
    return NONE, a & b


def bit_or(width, flags, a, b):
    return (FLAG, 0) if flags & DISJOINT and a & b else (NONE, a | b)


def bit_xor(width, flags, a, b):
    return NONE, a ^ b


WRAPS = [0, NSW, NUW, NSW | NUW]
BINARY = [
    ("ADD", add, WRAPS), ("SUB", sub, WRAPS), ("MUL", mul, WRAPS), ("UDIV", udiv, [0, EXACT]), ("SDIV", sdiv, [0, EXACT]),
    ("UREM", urem, [0]), ("SREM", srem, [0]), ("SHL", shl, WRAPS), ("LSHR", lshr, [0, EXACT]), ("ASHR", ashr, [0, EXACT]),
    ("AND", bit_and, [0]), ("OR", bit_or, [0, DISJOINT]), ("XOR", bit_xor, [0]),
]


def trunc(old, flags, a, new):
    if flags & NUW and a >> new:
        return FLAG, 0
    if flags & NSW and signed(new, a & ones(new)) != signed(old, a):
        return FLAG, 0
    return NONE, a & ones(new)


def zext(old, flags, a, new):
    return (FLAG, 0) if flags & NNEG and a >> (old - 1) else (NONE, a)


def sext(old, flags, a, new):
    return NONE, a | (ones(new) ^ ones(old) if a >> (old - 1) else 0)


CASTS = [("TRUNC", trunc, WRAPS), ("ZEXT", zext, [0, NNEG]), ("SEXT", sext, [0])]


def edges(width, chance):
    half = 1 << (width - 1)
    fixed = [0, 1, 2, 3, 5, width - 1, width, half - 1, half, half + 1, ones(width) - 1, ones(width)]
    drawn = [chance.randrange(1 << width) for _ in range(3)]
    return sorted({n & ones(width) for n in fixed + drawn})


def rows_of_binary(operation, flag_sets):
    """One row for each width, set of flags and cause, where there is one, and some that must be there."""
    chance = random.Random("operations")
    rows = []
    for width in WIDTHS:
        half = 1 << (width - 1)
        values = edges(width, chance)
        pairs = [(a, b) for a in values for b in values]
        for flags in flag_sets:
            if flags == NSW | NUW and width not in (1, 8):
                continue
            by_cause = {}
            for a, b in pairs:
                by_cause.setdefault(operation(width, flags, a, b)[0], []).append((a, b))
            for cause in sorted(by_cause):
                a, b = chance.choice(by_cause[cause])
                rows.append((width, flags, a, b) + operation(width, flags, a, b))
        must = [(half, ones(width)), (1, width) if operation is shl else (half - 1, 1)]
        for a, b in must:
            flags = flag_sets[-1] if flag_sets[-1] != NSW | NUW else NSW
            row = (width, flags, a, b & ones(width)) + operation(width, flags, a, b & ones(width))
            if row not in rows:
                rows.append(row)
    return rows


def rows_of_cast(operation, flag_sets, shrinks):
    chance = random.Random("casts")
    rows = []
    for old in WIDTHS:
        for new in WIDTHS:
            near = abs(WIDTHS.index(new) - WIDTHS.index(old)) <= 2 or 1 in (new, old)
            if (new < old) != shrinks or new == old or not near:
                continue
            values = edges(old, chance) + ([(1 << new) - 1, 1 << new, 1 << (new - 1), ones(old) ^ ones(new - 1)] if shrinks else [])
            flags = chance.choice(flag_sets)
            by_cause = {}
            for a in values:
                by_cause.setdefault(operation(old, flags, a, new)[0], []).append(a)
            for cause in sorted(by_cause):
                a = chance.choice(by_cause[cause])
                rows.append((old, flags, a, new) + operation(old, flags, a, new))
    if shrinks:
        rows += [row for row in rows_at_the_edges(operation) if row not in rows]
    return rows


def rows_at_the_edges(operation):
    """The last numbers that fit a smaller width and the first that do not, for each promise."""
    rows = []
    for old, new in [(8, 7), (64, 32)]:
        half = 1 << (new - 1)
        last_and_first = [(NUW, 2 * half - 1), (NUW, 2 * half), (NSW, half - 1), (NSW, half), (NSW, -half), (NSW, -half - 1)]
        for flags, a in last_and_first:
            rows.append((old, flags, a & ones(old), new) + operation(old, flags, a & ones(old), new))
    return rows


def compared(width, a, b):
    """Eq, Ne, Ugt, Uge, Ult, Ule, Sgt, Sge, Slt, Sle, each a bit from the lowest on."""
    x, y = signed(width, a), signed(width, b)
    tests = [a == b, a != b, a > b, a >= b, a < b, a <= b, x > y, x >= y, x < y, x <= y]
    return sum(1 << place for place, test in enumerate(tests) if test)


def reduced(width, a, b):
    """Add, Mul, And, Or, Xor, Smax, Smin, Umax, Umin."""
    key = lambda bits: signed(width, bits)
    return ((a + b) & ones(width), a * b & ones(width), a & b, a | b, a ^ b, max(a, b, key=key), min(a, b, key=key), max(a, b), min(a, b))


def pairs_at(width, count, chance):
    values = edges(width, chance)
    half = 1 << (width - 1)
    return [(half, half - 1), (ones(width), ones(width))] + [(chance.choice(values), chance.choice(values)) for _ in range(count)]


def show(name, what, rows):
    print(f"\n/// {what}")
    print(f"pub const {name}: [[u64; {len(rows[0])}]; {len(rows)}] = [")
    for row in rows:
        print("    [" + ", ".join(map(str, row)) + "],")
    print("];")


def operations():
    for name, operation, flag_sets in BINARY:
        show(name, "Width, flags, both operands, cause, value.", rows_of_binary(operation, flag_sets))


def others():
    for name, operation, flag_sets in CASTS:
        show(name, "Old width, flags, operand, new width, cause, value.", rows_of_cast(operation, flag_sets, name == "TRUNC"))
    chance = random.Random("pairs")
    rows = [(width, a, b, compared(width, a, b)) for width in WIDTHS for a, b in pairs_at(width, 3, chance)]
    show("COMPARE", "Width, both operands, a bit for each predicate.", rows)
    rows = [(width, a, b) + reduced(width, a, b) for width in WIDTHS for a, b in pairs_at(width, 2, chance)]
    show("REDUCE", "Width, both operands, what each reduction gives.", rows)


def main():
    which = sys.argv[1]
    what = {"operations": "Operations", "others": "Changes of width, comparisons and reductions"}[which]
    print(f"//! {what} at their edges, written by `bench/int_table.py` from Python's unbounded integers.")
    print("//!")
    print("//! Flags are 1 `nsw`, 2 `nuw`, 4 `exact`, 8 `disjoint` and 16 `nneg`; a cause is 0 none, 1 Overflow, 2 Shift,")
    print("//! 3 Divide, 4 Flag.")
    {"operations": operations, "others": others}[which]()


main()
