#!/usr/bin/env python3
"""Simulates netlists of growing size with the program, and prints a table of times and memory.

usage: measure/simulate.py PROGRAM [LARGEST]
It is started at the top of the repository.

Each netlist is made here: random logic with registers, one chain of gates, a deep hierarchy (each module has one
instance of the next), and a wide one (one module with many instances). Each is simulated once. It is ready when the line of
the first clock comes out, and the rate is that of the clocks behind it. The last line is the time of the first example.
"""
import os
import random
import subprocess
import sys
import tempfile
import time


def random_logic(cells):
    """Half LUTs of three inputs, half registers, each reading nets of any place before it."""
    draw = random.Random(cells)
    lines = ["module m (clk, a, y);", "  input clk, a;", "  output y;", f"  wire [{cells}:0] n;", "  buf (n[0], a);"]
    for k in range(1, cells + 1):
        if k % 2:
            ins = [draw.randrange(k) for _ in range(3)]
            init = draw.randrange(256)
            lines.append(f"  LUT3 #(.INIT(8'h{init:02x})) l{k} (.I0(n[{ins[0]}]), .I1(n[{ins[1]}]), .I2(n[{ins[2]}]), .O(n[{k}]));")
        else:
            lines.append(f"  FDRE r{k} (.C(clk), .CE(1'b1), .D(n[{k - 1}]), .Q(n[{k}]), .R(1'b0));")
    return "\n".join(lines + [f"  buf (y, n[{cells}]);", "endmodule", ""])


def short(number):
    """Few letters for a number. Behind a q or a z they are no word of Verilog's."""
    digits = "0123456789abcdefghijklmnopqrstuvwxyz"
    text = ""
    while number or not text:
        text = digits[number % 36] + text
        number //= 36
    return text


def tight_logic(cells):
    """Random logic as above, with LUTs of two inputs, short names and no blanks, so that a million cells fit into a file."""
    draw = random.Random(cells)
    lines = ["module m(clk,a,y);input clk,a;output y;wire " + ",".join(f"q{short(k)}" for k in range(cells + 1)) + ";buf(q0,a);"]
    for k in range(1, cells + 1):
        name, net = "z" + short(k), "q" + short(k)
        if k % 2:
            ins = [short(draw.randrange(k)) for _ in range(2)]
            lines.append(f"LUT2#(.INIT(4'h{draw.randrange(16):x})){name}(.I0(q{ins[0]}),.I1(q{ins[1]}),.O({net}));")
        else:
            lines.append(f"FDRE {name}(.C(clk),.CE(1'b1),.D(q{short(k - 1)}),.Q({net}),.R(1'b0));")
    return "\n".join(lines + [f"buf(y,q{short(cells)});", "endmodule", ""])


def chain(cells):
    """One chain of gates from the input to the output."""
    lines = ["module m (clk, a, y);", "  input clk, a;", "  output y;", f"  wire [{cells}:0] n;", "  buf (n[0], a);"]
    lines += [f"  not (n[{k + 1}], n[{k}]);" for k in range(cells)]
    return "\n".join(lines + [f"  buf (y, n[{cells}]);", "endmodule", ""])


def deep(cells):
    """200 modules in one another, each with as many gates as it takes."""
    depth, texts = 200, []
    each = max(1, cells // depth)
    for k in range(depth):
        name = "m" if k == 0 else f"m{k}"
        lines = [f"module {name} (clk, a, y);", "  input clk, a;", "  output y;", f"  wire [{each}:0] n;", "  buf (n[0], a);"]
        lines += [f"  not (n[{i + 1}], n[{i}]);" for i in range(each)]
        if k + 1 < depth:
            lines.append(f"  m{k + 1} u (.clk(clk), .a(n[{each}]), .y(y));")
        else:
            lines.append(f"  buf (y, n[{each}]);")
        texts.append("\n".join(lines + ["endmodule", ""]))
    return "".join(texts)


def wide(cells):
    """Many instances of one module of ten cells."""
    count = max(1, cells // 13)
    lines = ["module m (clk, a, y);", "  input clk, a;", "  output y;", f"  wire [{count}:0] n;", "  buf (n[0], a);"]
    lines += [f"  part u{k} (.clk(clk), .a(n[{k}]), .y(n[{k + 1}]));" for k in range(count)]
    lines += [f"  buf (y, n[{count}]);", "endmodule", "module part (clk, a, y);", "  input clk, a;", "  output y;", "  wire [8:0] n;", "  buf (n[0], a);"]
    lines += [f"  not (n[{k + 1}], n[{k}]);" for k in range(8)]
    lines += ["  FDRE r (.C(clk), .CE(1'b1), .D(n[8]), .Q(y), .R(1'b0));", "endmodule", ""]
    return "\n".join(lines)


def clock_lines(lines, start):
    """The seconds from the start to each part of the output that has lines of clocks, and how many had come out by then."""
    seen = []
    count = -1  # Line 1 has the names of the outputs.
    while part := os.read(lines, 65536):
        count += part.count(b"\n")
        if count > 0:
            seen.append((time.monotonic() - start, count))
    os.close(lines)
    return seen


def rate(cells, seen):
    """Million cells times clocks a second behind the first clock's line, where the parts of the output can tell it."""
    (first, before), (last, all_of_them) = seen[0], seen[-1]
    if all_of_them < 2 * before or last == first:
        return "too short to tell"
    return f"{cells * (all_of_them - before) / (last - first) / 1e6:.1f}"


def run(program, folder, netlist, clocks):
    """What the program says, when the lines of clocks came out, and the peak of memory in MB."""
    with open(os.path.join(folder, "m.v"), "w") as out:
        out.write(netlist)
    with open(os.path.join(folder, "stimulus"), "w") as out:
        out.write("a\n" + "".join(f"{k % 2}\n" for k in range(clocks)))
    errors = os.path.join(folder, "errors")
    lines, out = os.pipe()
    start = time.monotonic()
    child = os.fork()
    if child == 0:
        os.chdir(folder)
        os.dup2(os.open("stimulus", os.O_RDONLY), 0)
        os.dup2(out, 1)
        os.dup2(os.open(errors, os.O_WRONLY | os.O_CREAT | os.O_TRUNC), 2)
        os.execv(program, [program, "sim", "m.v", "m", "clk"])
    os.close(out)
    seen = clock_lines(lines, start)
    _, _, usage = os.wait4(child, 0)
    with open(errors) as file:
        answer = file.read(60).strip()
    return answer, seen, usage.ru_maxrss / 1024


def example(program):
    """The least time of the first example, in milliseconds, of 50 runs."""
    folder = os.path.join("examples", "toggle")
    least = None
    for _ in range(50):
        with open(os.path.join(folder, "stimulus.txt")) as rows:
            start = time.monotonic()
            subprocess.run([program, "sim", "tog.v", "tog", "clk"], cwd=folder, stdin=rows, stdout=subprocess.DEVNULL, check=True)
            seconds = time.monotonic() - start
        least = seconds if least is None else min(least, seconds)
    return least * 1000


def main():
    program = os.path.abspath(sys.argv[1])
    largest = int(sys.argv[2]) if len(sys.argv) > 2 else 1_000_000
    print("| Netlist | Cells | Ready, s | Million cells times clocks a second | Peak MB |")
    print("|---|---|---|---|---|")
    with tempfile.TemporaryDirectory() as folder:
        for make in (random_logic, tight_logic, chain, deep, wide):
            for cells in (1_000, 10_000, 62_500, 125_000, 250_000, 500_000, 1_000_000):
                if cells > largest:
                    continue
                netlist = make(cells)
                more = max(100, min(1000, 200_000_000 // cells))
                answer, seen, peak = run(program, folder, netlist, 1 + more)
                told = f"`{answer}` | " if answer else f"{seen[0][0]:.2f} | {rate(cells, seen)}"
                print(f"| {make.__name__} | {cells} | {told} | {peak:.0f} |", flush=True)
    print(f"\nThe first example: {example(program):.1f} ms")


if __name__ == "__main__":
    main()
