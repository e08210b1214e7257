#!/usr/bin/env python3
"""Bytes read and checked a second, on texts of several kinds, as their length doubles four times.

    python3 bench/reader_speed.py [BYTES]

It times `check` of crates/privateer/out/privateer, which `rt run` in crates/privateer builds, and beside it llvm-as where
Debian's package llvm-16 is installed. BYTES is the length of the longest text, at most 4,194,304. Each time is the least of
three runs. It is no test.
"""
import os
import shutil
import subprocess
import sys
import tempfile
import time

ROOT = os.path.dirname(os.path.dirname(os.path.abspath(__file__)))
PROGRAM = os.path.join(ROOT, "crates", "privateer", "out", "privateer")
MAIN = "define i32 @main() {\n  ret i32 0\n}\n"


def repeated(before, piece, between, behind, length):
    """`before`, as many pieces as fit into so many bytes, and `behind`."""
    pieces = []
    size = len(before) + len(behind) + len(MAIN)
    while True:
        text = piece(len(pieces))
        size += len(text) + len(between)
        if size > length:
            return before + between.join(pieces) + behind + MAIN
        pieces.append(text)


def one_function(length):
    body = lambda i: f"  %v{i} = add i32 %a, {i}\n"
    return repeated("define i32 @f(i32 %a) {\n", body, "", "  ret i32 %a\n}\n", length)


def blocks(length):
    body = lambda i: f"b{i}:\n  br label %b{i + 1}\n"
    text = repeated("define void @f() {\n  br label %b0\n", body, "", "END:\n  ret void\n}\n", length)
    last = text.rindex("label %b")
    name = text[last + 7 : text.index("\n", last)]
    return text.replace("END:", name + ":", 1)


def functions(length):
    return repeated("", lambda i: f"define i32 @f{i}(i32 %a) {{\n  %b = call i32 @f{i}(i32 %a)\n  ret i32 %b\n}}\n", "", "", length)


def one_type(length):
    return repeated("%t = type { ", lambda i: "i8" if i % 2 else "i32", ", ", " }\n", length)


def initialiser(length):
    count = (length - 200) // 10
    values = ", ".join(f"i32 {i % 1000}" for i in range(count))
    return f"@g = global [{count} x i32] [ {values} ]\n" + MAIN


def brackets(length):
    depth = (length - 200) // 8
    return "@g = global " + "[1 x " * depth + "i8" + "]" * depth + " zeroinitializer\n" + MAIN


def comments(length):
    return "; a comment of some length\n" * ((length - 200) // 27) + MAIN


def two_faults(length):
    """A fault in a body that is passed over, and then one in an item: the first is searched for by its place."""
    return functions(length - 100) + "!0 = !{ %x = type { i0 } }\n@g = global i0 0\n"


KINDS = [
    ("one function", one_function),
    ("blocks", blocks),
    ("functions", functions),
    ("one type", one_type),
    ("one initialiser", initialiser),
    ("brackets", brackets),
    ("comments", comments),
    ("two faults", two_faults),
]


def least(command):
    best, status = None, 0
    for _ in range(3):
        begun = time.perf_counter()
        status = subprocess.run(command, stdout=subprocess.DEVNULL, stderr=subprocess.DEVNULL, timeout=600).returncode
        taken = time.perf_counter() - begun
        best = taken if best is None else min(best, taken)
    return best, status


def main():
    longest = int(sys.argv[1]) if len(sys.argv) > 1 else 4_000_000
    if not os.path.exists(PROGRAM):
        sys.exit("no program at " + PROGRAM + ": build it by `rt run` in crates/privateer")
    other = shutil.which("llvm-as-16")
    print(f"{'text':18} {'bytes':>9} {'status':>6} {'seconds':>8} {'MB/s':>7} {'llvm-as-16 s':>13}")
    with tempfile.TemporaryDirectory() as folder:
        module = os.path.join(folder, "module.ll")
        for name, make in KINDS:
            for part in (16, 8, 4, 2, 1):
                text = make(longest // part)
                with open(module, "w") as file:
                    file.write(text)
                taken, status = least([PROGRAM, "check", module])
                beside = "-"
                if other:
                    beside = f"{least([other, '-o', '/dev/null', module])[0]:.2f}"
                print(f"{name:18} {len(text):>9} {status:>6} {taken:>8.2f} {len(text) / taken / 1e6:>7.1f} {beside:>13}")


if __name__ == "__main__":
    main()
