#!/usr/bin/env bash
# Times `ompopt opt` on texts near the limit, and prints time and peak memory. It is no test.
# usage: bench/opt.sh [PROGRAM]      the program as `rt ci` leaves it: crates/ompopt/out/ompopt
set -euo pipefail
top=$(cd "$(dirname "$0")/.." && pwd)
program=${1:-$top/crates/ompopt/out/ompopt}
work=$(mktemp -d)
trap 'rm -rf "$work"' EXIT
PYTHONDONTWRITEBYTECODE=1 PYTHONPATH=$top/bench python3 - "$program" "$work" <<'PY'
import shutil, sys
from measure import kernel, least_time, write

program, work = sys.argv[1:]
LIMIT = 4_194_304

def straight_line():
    """A kernel of 199,990 instructions, near 4 MiB."""
    lines, size, n = [], len(kernel("ptr %p", "")), 0
    while len(lines) < 199_990:
        a = f"  %a{n} = load i32, ptr %p\n"
        b = f"  %b{n} = add i32 %a{n}, 1\n" if n % 3 else f"  store i32 {n}, ptr %p\n"
        if size + len(a) + len(b) > LIMIT - 64:
            break
        lines += [a, b]
        size += len(a) + len(b)
        n += 1
    return kernel("ptr %p", "".join(lines))

def comments():
    """The short kernel behind 4 MiB of comments."""
    short = kernel("ptr %p", "  store i32 7, ptr %p\n")
    line = "; " + "a comment that runs to the end of its line " * 2 + "\n"
    return line * ((LIMIT - len(short)) // len(line)) + short

FORMS = """%T{n} = type {{ i32, [4 x i8], ptr }}
@g{n} = internal unnamed_addr constant %T{n} {{ i32 {n}, [4 x i8] c"\\00a~b", ptr @f{n} }}, align 8
define internal noundef i32 @f{n}(ptr noalias nocapture %p, i32 noundef %x, i64) local_unnamed_addr #0 {{
  %c = icmp sgt i32 %x, {n}
  br i1 %c, label %then, label %"else part"
then:                                             ; preds = %1
  %a = getelementptr inbounds %T{n}, ptr %p, i64 0, i32 1, i64 %0
  %b = load i8, ptr %a, align 1, !tbaa !7
  %d = sext i8 %b to i32
  %e = mul nsw i32 %d, -3
  br label %end
"else part":
  call void @llvm.lifetime.start.p0(i64 8, ptr %p)
  %h = atomicrmw add ptr %p, i32 1 seq_cst, align 4
  %i = tail call fastcc i32 @f{n}(ptr nonnull align 8 %p, i32 %h, i64 1) #1, !dbg !9
  switch i32 %i, label %end [
    i32 0, label %end
    i32 1, label %then
  ]
end:
  %v = phi i32 [ %e, %then ], [ %i, %"else part" ], [ 7, %"else part" ]
  ret i32 %v
}}
"""

def all_forms():
    """Types, globals and functions of many forms, 4 MiB of them, which are refused for their names: a function is no initializer."""
    parts, size, n = [], 0, 0
    while size < LIMIT - 2048:
        parts.append(FORMS.format(n=n))
        size += len(parts[-1])
        n += 1
    return "".join(parts)

KERNEL = """define weak_odr protected void @k{n}(ptr noundef nonnull align 4 %a, i32 noundef %b) #0 {{
entry:
  %i = call i32 @__kmpc_target_init(ptr null, i8 1, i1 true)
  %m = icmp eq i32 %i, -1
  br i1 %m, label %user, label %exit
user:                                             ; preds = %entry
  br label %head
head:
  %c = phi i32 [ 0, %user ], [ %d, %next ]
  %t = icmp slt i32 %c, %b
  br i1 %t, label %next, label %done
next:
{body}  %d = add nsw i32 %c, 1
  br label %head
done:
  call void @__kmpc_target_deinit(ptr null, i8 1)
  ret void
exit:                                             ; preds = %entry
  ret void
}}
"""
PIECE = """  %x{n} = getelementptr inbounds i32, ptr %a, i32 {n}
  %y{n} = load i32, ptr %x{n}, align 4
  %z{n} = mul nsw i32 %y{n}, %b
  store i32 %z{n}, ptr %x{n}, align 4
"""
DECLARATIONS = """declare i32 @__kmpc_target_init(ptr, i8, i1)
declare void @__kmpc_target_deinit(ptr, i8)
"""

def kernels(size):
    """Kernels without regions, with a loop each, of so many bytes."""
    body = "".join(PIECE.format(n=n) for n in range(40))
    count = size // len(KERNEL.format(n=1000, body=body))
    return "".join(KERNEL.format(n=n, body=body) for n in range(count)) + DECLARATIONS

def timed(text, command, want=0):
    return least_time([*command, write(work, "module.ll", text)], work, want)

def measure(name, text, bar, want=0):
    best, peak = timed(text, [program, "opt"], want)
    print(f"{name:14} {len(text):>9} bytes  {best:6.3f} s (bar {bar} s)  peak {peak / 2**20:7.1f} MiB, {peak / len(text):5.1f} times the text (bar 60)")

def beside_llvm(text, took, peak):
    """The same text through LLVM's own pass."""
    opt = shutil.which("opt-16")
    if opt is None:
        print("    opt-16 isn't installed, so nothing is measured beside it")
        return
    for options in (["-S"], ["-passes=openmp-opt", "-S"]):
        other, other_peak = timed(text, [opt, *options])
        print(f"    {' '.join(['opt-16', *options]):30} {other:6.3f} s  peak {other_peak / 2**20:7.1f} MiB  ompopt takes {took / other:5.2f} times the time (bar 1), {peak / other_peak:5.2f} times the memory")

measure("straight line", straight_line(), 0.3)
measure("comments", comments(), 0.1)
measure("all forms", all_forms(), 0.5, want=3)
times = []
for size in (LIMIT // 4, LIMIT - 4096):
    text = kernels(size)
    took, peak = timed(text, [program, "opt"])
    times.append(took)
    print(f"{'kernels':14} {len(text):>9} bytes  {took:6.3f} s  peak {peak / 2**20:7.1f} MiB, {peak / len(text):5.1f} times the text (bar 60)")
    beside_llvm(text, took, peak)
print(f"ratio of the times, 4 MiB to 1 MiB (bar 4.5): {times[1] / times[0]:5.2f}")
PY
