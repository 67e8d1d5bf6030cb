#!/usr/bin/env bash
# Times `ompopt replay`, and prints the time for each step and the ratios that must stay near one. It is no test.
# usage: bench/replay.sh [PROGRAM]      the program as `rt ci` leaves it: crates/ompopt/out/ompopt
set -euo pipefail
top=$(cd "$(dirname "$0")/.." && pwd)
program=${1:-$top/crates/ompopt/out/ompopt}
work=$(mktemp -d)
trap 'rm -rf "$work"' EXIT
PYTHONDONTWRITEBYTECODE=1 PYTHONPATH=$top/bench python3 - "$program" "$work" <<'PY'
import sys
from measure import kernel, least_time, write

program, work = sys.argv[1:]

def storing(buffers):
    """A kernel that stores without end in a loop of 10,000 stores, to so many buffers in turn."""
    params = ", ".join(f"ptr %p{n}" for n in range(buffers))
    stores = "".join(f"  store i32 {n}, ptr %p{n % buffers}\n" for n in range(10_000))
    return kernel(params, f"  br label %head\nhead:\n{stores}  %t = icmp ne i32 %i, 0\n  br i1 %t, label %head, label %done\ndone:\n")

def launch(threads, buffers):
    return f"kernel k\nthreads {threads}\nsteps 2000000\n" + "arg zeros 4\n" * buffers

def timed(module, start, schedule, want):
    """The least time of a replay, and the peak memory."""
    texts = {"module.ll": module, "launch": start, "schedule": schedule}
    return least_time([program, "replay", *(write(work, name, text) for name, text in texts.items())], work, want)

def each_step(name, module, start):
    """The time for a step, of which two counts are subtracted, so that reading and the start don't count."""
    few, many = 200_000, 2_000_000
    short, _ = timed(module, start, f"1 {few}\n", 10)
    long, peak = timed(module, start, f"1 {many}\n", 10)
    step = (long - short) / (many - few)
    print(f"{name:44} {step * 1e9:8.1f} ns a step, {long - short:6.3f} s for {many - few} steps (bar 1 s for {many}), peak {peak / 2**20:6.1f} MiB")
    return step

LOOP = """  br label %head
head:
  %c = phi i32 [ 0, %user ], [ %d, %head ]
  store i32 %c, ptr %p
  %d = add i32 %c, 1
  %t = icmp ne i32 %d, 0
  br i1 %t, label %head, label %done
done:
"""

def looping(behind):
    """A kernel that stores in a loop without end, with so many instructions behind the loop."""
    return kernel("ptr %p", LOOP + "  store i32 1, ptr %p\n" * behind)

few = each_step("stores to 10 buffers", storing(10), launch(1, 10))
many = each_step("stores to 10,000 buffers", storing(10_000), launch(1, 10_000))
print(f"{'ratio, 10,000 buffers to 10 (bar 2)':44} {many / few:8.2f}")

short = each_step("a loop in a module of 40 instructions", looping(28), launch(1, 1))
long = each_step("the loop in a module of 170,000 instructions", looping(170_000), launch(1, 1))
print(f"{'ratio, the long module to the short (bar 1.5)':44} {long / short:8.2f}")

module, start = looping(0), launch(64, 1)
turns = 2_000_000 - 64 * 4
took, peak = timed(module, start, "64 1\n" * turns + "".join(f"{t} 4\n" for t in range(64)), 10)
print(f"{'pairs of one step, of a team of 65 threads':44} {took:8.3f} s for {turns} pairs, peak {peak / 2**20:6.1f} MiB")
PY
