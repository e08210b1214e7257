#!/usr/bin/env python3
"""Machine steps a second, on loops of several kinds, as the turns double four times.

    python3 bench/machine_speed.py [TURNS]

It times crates/privateer/out/privateer, which `rt run` in crates/privateer builds, and beside it LLVM's interpreter where
Debian's package llvm-16 is installed. Each time is the least of three runs. It is no test.
"""
import os
import shutil
import subprocess
import sys
import tempfile
import time

ROOT = os.path.dirname(os.path.dirname(os.path.abspath(__file__)))
PROGRAM = os.path.join(ROOT, "crates", "privateer", "out", "privateer")

COUNT = """define i32 @main() {{
entry:
  br label %head
head:
  %i = phi i32 [ 0, %entry ], [ %j, %head ]
  %j = add i32 %i, 1
  %c = icmp ult i32 %j, {turns}
  br i1 %c, label %head, label %done
done:
  ret i32 0
}}
"""

PRINT = """declare i32 @putchar(i32)
define i32 @main() {{
entry:
  br label %head
head:
  %i = phi i32 [ 0, %entry ], [ %j, %head ]
  %b = phi i32 [ 0, %entry ], [ %d, %head ]
  %p = call i32 @putchar(i32 %b)
  %d = add i32 %b, 7
  %j = add i32 %i, 1
  %c = icmp ult i32 %j, {turns}
  br i1 %c, label %head, label %done
done:
  ret i32 0
}}
"""

LOADS = """@n = global i32 0
define i32 @main() {{
entry:
  br label %head
head:
  %i = phi i32 [ 0, %entry ], [ %j, %head ]
  %x = load i32, ptr @n
  %y = add i32 %x, 1
  store i32 %y, ptr @n
  %j = add i32 %i, 1
  %c = icmp ult i32 %j, {turns}
  br i1 %c, label %head, label %done
done:
  ret i32 0
}}
"""

TABLE = """@scratch = global [16 x i32] zeroinitializer
@fmt = constant [4 x i8] c"%d\\0A\\00"
declare i32 @printf(ptr, ...)
define i32 @main() {{
entry:
  br label %head
head:
  %i = phi i32 [ 0, %entry ], [ %j, %head ]
  %k = and i32 %i, 15
  %q = getelementptr inbounds [16 x i32], ptr @scratch, i64 0, i32 %k
  store i32 %k, ptr %q
  %x = load i32, ptr %q
  %r = call i32 (ptr, ...) @printf(ptr @fmt, i32 %x)
  %j = add i32 %i, 1
  %c = icmp ult i32 %j, {turns}
  br i1 %c, label %head, label %done
done:
  ret i32 0
}}
"""

# An object is made and freed in each turn, among `turns` / 4 others.
OBJECTS = """declare ptr @malloc(i64)
declare void @free(ptr)
define i32 @main() {{
entry:
  br label %head
head:
  %i = phi i32 [ 0, %entry ], [ %j, %last ]
  %p = call ptr @malloc(i64 1)
  %w = and i32 %i, 3
  %z = icmp eq i32 %w, 0
  br i1 %z, label %last, label %drop
drop:
  call void @free(ptr %p)
  br label %last
last:
  %j = add i32 %i, 1
  %c = icmp ult i32 %j, {turns}
  br i1 %c, label %head, label %done
done:
  ret i32 0
}}
"""

# Four times `objects` objects are made, and then freed: STEP is how far from one to the next that is freed.
FREED = """declare ptr @malloc(i64)
declare void @free(ptr)
define i32 @main() {{
entry:
  %all = zext i32 {objects} to i64
  %bytes = mul i64 %all, 8
  %t = call ptr @malloc(i64 %bytes)
  br label %round
round:
  %n = phi i32 [ 0, %entry ], [ %m, %again ]
  br label %make
make:
  %i = phi i32 [ 0, %round ], [ %j, %make ]
  %p = call ptr @malloc(i64 1)
  %q = getelementptr ptr, ptr %t, i32 %i
  store ptr %p, ptr %q
  %j = add i32 %i, 1
  %c = icmp ult i32 %j, {objects}
  br i1 %c, label %make, label %drop
drop:
  %k = phi i32 [ 0, %make ], [ %l, %drop ]
  %at = phi i32 [ 0, %make ], [ %next, %drop ]
  %r = getelementptr ptr, ptr %t, i32 %at
  %o = load ptr, ptr %r
  call void @free(ptr %o)
  %sum = add i32 %at, STEP
  %next = urem i32 %sum, {objects}
  %l = add i32 %k, 1
  %d = icmp ult i32 %l, {objects}
  br i1 %d, label %drop, label %again
again:
  %m = add i32 %n, 1
  %e = icmp ult i32 %m, 4
  br i1 %e, label %round, label %done
done:
  ret i32 0
}}
"""

CALLS = """define i32 @down(i32 %n) {{
entry:
  %z = icmp eq i32 %n, 0
  br i1 %z, label %end, label %more
more:
  %m = sub i32 %n, 1
  %r = call i32 @down(i32 %m)
  ret i32 %r
end:
  ret i32 0
}}
define i32 @main() {{
entry:
  br label %head
head:
  %i = phi i32 [ 0, %entry ], [ %j, %head ]
  %r = call i32 @down(i32 1000)
  %j = add i32 %i, 1
  %k = mul i32 %j, 5000
  %c = icmp ult i32 %k, {turns}
  br i1 %c, label %head, label %done
done:
  ret i32 0
}}
"""

# A thousand calls of a function that has as many registers as there are turns / 100, nearly all in a block that is never entered.
WIDE = """define i32 @wide(i32 %n) {{
entry:
  %z = icmp eq i32 %n, -1
  br i1 %z, label %never, label %end
never:
{wide}  br label %end
end:
  ret i32 0
}}
define i32 @main() {{
entry:
  br label %head
head:
  %i = phi i32 [ 0, %entry ], [ %j, %head ]
  %r = call i32 @wide(i32 %i)
  %j = add i32 %i, 1
  %c = icmp ult i32 %j, 1000
  br i1 %c, label %head, label %done
done:
  ret i32 0
}}
"""

# name, text
LOOPS = [
    ("count", COUNT),
    ("two phis, putchar", PRINT),
    ("load and store", LOADS),
    ("table, printf", TABLE),
    ("malloc and free", OBJECTS),
    ("freed in order", FREED.replace("STEP", "1")),
    ("freed in reverse", FREED.replace("STEP", "{back}")),
    ("freed at random", FREED.replace("STEP", "514229")),
    ("calls 1000 deep", CALLS),
    ("calls of a wide one", WIDE),
]


def wide(registers):
    return "".join(f"  %x{k} = add i32 %n, {k}\n" for k in range(registers))


def least(command):
    best = None
    for _ in range(3):
        begun = time.perf_counter()
        subprocess.run(command, stdout=subprocess.DEVNULL, stderr=subprocess.DEVNULL, check=True, timeout=600)
        taken = time.perf_counter() - begun
        best = taken if best is None else min(best, taken)
    return best


def main():
    turns = int(sys.argv[1]) if len(sys.argv) > 1 else 125_000
    if not os.path.exists(PROGRAM):
        sys.exit("no program at " + PROGRAM + ": build it by `rt run` in crates/privateer")
    lli = shutil.which("lli-16")
    print(f"{'loop':20} {'turns':>10} {'steps':>11} {'seconds':>8} {'steps/s':>12} {'lli-16 s':>9}")
    with tempfile.TemporaryDirectory() as folder:
        module = os.path.join(folder, "loop.ll")
        empty = os.path.join(folder, "empty")
        open(empty, "w").close()
        for name, text in LOOPS:
            for factor in (1, 2, 4, 8, 16):
                with open(module, "w") as file:
                    count = turns * factor
                    file.write(text.format(turns=count, objects=count // 8, back=count // 8 - 1, wide=wide(count // 100)))
                command = [PROGRAM, "run", module, empty, "--budget", "1000000000"]
                ran = subprocess.run(command, stdout=subprocess.DEVNULL, stderr=subprocess.PIPE, text=True)
                end = ran.stderr.split("\n")[0]
                if not end.startswith("ended"):
                    print(f"{name:20} {turns * factor:>10} {end}")
                    continue
                steps = int(end.split()[-1])
                taken = least(command)
                other = "-"
                if lli:
                    other = f"{least([lli, '-force-interpreter', '-jit-kind=mcjit', module]):.2f}"
                print(f"{name:20} {turns * factor:>10} {steps:>11} {taken:>8.2f} {steps / taken:>12.0f} {other:>9}")


if __name__ == "__main__":
    main()
