"""What the bench scripts share: the kernel around some user code, and the least time of a command."""
import os, subprocess, sys, time

INIT = """entry:
  %i = call i32 @__kmpc_target_init(ptr null, i8 1, i1 true)
  %m = icmp eq i32 %i, -1
  br i1 %m, label %user, label %exit
user:
"""
TAIL = """  call void @__kmpc_target_deinit(ptr null, i8 1)
  ret void
exit:
  ret void
}
declare i32 @__kmpc_target_init(ptr, i8, i1)
declare void @__kmpc_target_deinit(ptr, i8)
"""

def kernel(params, body):
    """The text of a kernel with this user code."""
    return f"define void @k({params}) {{\n{INIT}{body}{TAIL}"

def write(work, name, text):
    path = os.path.join(work, name)
    with open(path, "w") as f:
        f.write(text)
    return path

def least_time(command, work, want):
    """The least time of five runs, and the peak memory in bytes; it ends at a status other than the one that is wanted."""
    best, peak, notes = None, 0, os.path.join(work, "notes")
    for _ in range(5):
        with open(os.path.join(work, "out"), "wb") as out, open(notes, "wb") as errors:
            begin = time.monotonic()
            child = subprocess.Popen(command, stdout=out, stderr=errors)
            _, status, usage = os.wait4(child.pid, 0)
            took = time.monotonic() - begin
        best = took if best is None else min(best, took)
        peak = max(peak, usage.ru_maxrss * 1024)
        status = os.waitstatus_to_exitcode(status)
        if status != want:
            with open(notes) as f:
                sys.exit(f"{command[1]}: status {status}, not {want}: {f.read()}")
    return best, peak
