#!/usr/bin/env python3
"""Times `ila sim` on hostile netlists of 64 MB, and on one in the style of a synthesis tool.

Usage: measure/hostile.py [PROGRAM]

Each netlist is made in a temporary folder and simulated once. The table has the answer, the time and the
peak of memory of each.
"""
import os
import sys
import tempfile
import time

MOST = 67_108_864


def filled(front, part, back=b""):
    """The front, the part as often as it fits into the greatest length, and the back."""
    count = (MOST - len(front) - len(back)) // len(part)
    return front + part * count + back


def instances():
    """Flip-flops as a synthesis tool writes them, each on a net of its own."""
    out = [b"/* Generated */\n\n(* top =  1  *)\nmodule top(clk, d);\n  input clk;\n  wire clk;\n  input d;\n  wire d;\n"]
    size = len(out[0]) + 11
    n = 0
    while True:
        one = (
            b"  wire \\r%d ;\n  FDRE #(\n    .INIT(1'h0)\n  ) _%07d_ (\n    .C(clk),\n    .CE(1'h1),\n    .D(d),\n"
            b"    .Q(\\r%d ),\n    .R(1'h0)\n  );\n" % (n, n, n)
        )
        if size + len(one) > MOST:
            break
        out.append(one)
        size += len(one)
        n += 1
    out.append(b"endmodule\n")
    return b"".join(out)


INPUTS = [
    ("identifiers", lambda: filled(b"", b"a ")),
    ("identifiers in a header", lambda: filled(b"module m (a", b",a")),
    ("open braces", lambda: filled(b"", b"{")),
    ("open braces in an assign", lambda: filled(b"module m; assign ", b"{")),
    ("braces, 1,000,000 deep, closed", lambda: b"module m; assign " + b"{" * 10**6 + b"a" + b"}" * 10**6 + b"= b; endmodule"),
    ("parts of one concatenation", lambda: filled(b"module m; assign a = {b", b",b", b"}; endmodule")),
    ("an attribute that never closes", lambda: filled(b"(*", b"a")),
    ("a comment that never closes", lambda: filled(b"/*", b"*")),
    ("open parentheses and stars", lambda: filled(b"", b"(*)")),
    ("modules", lambda: filled(b"", b"module m;endmodule ")),
    ("instances, in a synthesis tool's style", instances),
]


def run(program, folder, text):
    """The answer, the seconds and the peak of memory in MB of one simulation."""
    with open(os.path.join(folder, "n.v"), "wb") as file:
        file.write(text)
    errors = os.path.join(folder, "errors")
    start = time.monotonic()
    child = os.fork()
    if child == 0:
        os.chdir(folder)
        null = os.open(os.devnull, os.O_RDWR)
        line = os.open(errors, os.O_WRONLY | os.O_CREAT | os.O_TRUNC)
        os.dup2(null, 0)
        os.dup2(null, 1)
        os.dup2(line, 2)
        os.execv(program, [program, "sim", "n.v", "top", "clk"])
    _, status, usage = os.wait4(child, 0)
    seconds = time.monotonic() - start
    if os.WIFSIGNALED(status):
        answer = "signal %d" % os.WTERMSIG(status)
    else:
        with open(errors, "rb") as file:
            answer = file.read(60).decode("ascii", "replace").strip() or "done"
    return answer, seconds, usage.ru_maxrss / 1024


def main():
    program = os.path.abspath(sys.argv[1] if len(sys.argv) > 1 else "crates/ila/out/ila")
    print("| Netlist | MB | Answer | Seconds | Peak MB |")
    print("|---|---|---|---|---|")
    with tempfile.TemporaryDirectory() as folder:
        for name, make in INPUTS:
            text = make()
            answer, seconds, peak = run(program, folder, text)
            print("| %s | %.0f | `%s` | %.1f | %.0f |" % (name, len(text) / 2**20, answer, seconds, peak), flush=True)


if __name__ == "__main__":
    main()
