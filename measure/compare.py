#!/usr/bin/env python3
"""Compares the program with another simulator, and prints a table.

usage: measure/compare.py PROGRAM [CLOCKS [DRAWN]]
It is started at the top of the repository, and needs yosys and Icarus Verilog (yosys, iverilog, vvp).

Each design of measure/designs is synthesized by yosys as docs/NETLISTS.md says, once with its hierarchy and once flattened.
Beside these, netlists are drawn at random (measure/random_netlists.py). Each netlist is simulated by the program and, with
yosys's own models of the cells, by Icarus, over the same random rows. Both print the outputs of each clock before its edge;
the texts must be equal. The status is 1 where one is not.
"""
import json
import os
import random
import re
import shutil
import subprocess
import sys
import tempfile

import random_netlists

TOOLS = ["yosys", "iverilog", "vvp"]


def models():
    """The file with yosys's models of the cells, in the folder of data that belongs to the yosys that is found."""
    if shutil.which("yosys-config"):
        folder = subprocess.run(["yosys-config", "--datdir"], check=True, capture_output=True, text=True).stdout.strip()
    else:
        folder = os.path.join(os.path.dirname(os.path.dirname(os.path.realpath(shutil.which("yosys")))), "share", "yosys")
    return os.path.join(folder, "xilinx", "cells_sim.v")


def synthesize(folder, source, top, flatten):
    """The ports of the synthesized design, each with its direction and width, in the order of its header."""
    script = [
        f"read_verilog {source}",
        f"synth_xilinx -top {top} {'-flatten ' if flatten else ''}-nobram -nodsp -nosrl -nolutram",
        "setundef -zero -undriven",
        "setundef -zero -params",
        "opt_clean",
        "write_verilog -noattr net.v",
        "write_json net.json",
    ]
    with open(os.path.join(folder, "script.ys"), "w") as out:
        out.write("\n".join(script) + "\n")
    subprocess.run(["yosys", "-q", "script.ys"], cwd=folder, check=True)
    with open(os.path.join(folder, "net.json")) as file:
        ports = json.load(file)["modules"][top]["ports"]
    return [(name, port["direction"] == "output", len(port["bits"])) for name, port in ports.items()]


def inputs_of(ports):
    """The names and widths of the inputs that a row has words for."""
    return [(name, width) for name, output, width in ports if not output and name != "clk"]


def digits(value, width):
    """A row's word for a value: one digit for a bit, else hexadecimal digits for all bits."""
    return format(value, f"0{(width + 3) // 4}x")


def rows(inputs, clocks, seed):
    """Random values for the inputs. Control bits are 0 more often, so that a design does some work between resets."""
    draw = random.Random(seed)
    return [[draw.getrandbits(width) if width > 1 else int(draw.random() < 0.4) for _, width in inputs] for _ in range(clocks)]


def bench(top, ports, given):
    """A test bench that puts the rows on the inputs and prints the outputs before each edge."""
    inputs = inputs_of(ports)
    outputs = [(name, width) for name, output, width in ports if output]
    lines = ["`timescale 1ns/1ps", "module bench;", "  reg clk = 0;"]
    lines += [f"  reg [{width - 1}:0] {name} = 0;" for name, width in inputs]
    lines += [f"  wire [{width - 1}:0] {name};" for name, width in outputs]
    lines.append(f"  {top} dut (" + ", ".join(f".{name}({name})" for name, _, _ in ports) + ");")
    lines.append("  initial begin")
    lines.append('    $display("' + " ".join(name for name, _ in outputs) + '");')
    form = " ".join("%b" if width == 1 else "%h" for _, width in outputs)
    shown = ", ".join(name for name, _ in outputs)
    for row in given:
        sets = " ".join(f"{name} = {width}'h{value:x};" for (name, width), value in zip(inputs, row))
        lines.append(f'    {sets} #5 $display("{form}", {shown}); clk = 1; #5 clk = 0; #5;')
    return "\n".join(lines + ["    $finish;", "  end", "endmodule", ""])


def by_icarus(folder, top, ports, given):
    """What Icarus prints."""
    with open(os.path.join(folder, "bench.v"), "w") as out:
        out.write(bench(top, ports, given))
    subprocess.run(["iverilog", "-g2012", "-o", "bench", "-s", "bench", "bench.v", "net.v", models()], cwd=folder, check=True)
    done = subprocess.run(["vvp", "-n", "bench"], cwd=folder, check=True, capture_output=True, text=True)
    return done.stdout


def by_program(program, folder, top, ports, given):
    """What the program prints, and its error line."""
    inputs = inputs_of(ports)
    text = " ".join(name for name, _ in inputs) + "\n"
    text += "".join(" ".join(digits(value, width) for (_, width), value in zip(inputs, row)) + "\n" for row in given)
    done = subprocess.run([program, "sim", "net.v", top, "clk"], cwd=folder, input=text, capture_output=True, text=True)
    return done.stdout, done.stderr.strip()


def cells_of(folder):
    """The kinds of cells of the netlist, and how many instances there are."""
    with open(os.path.join(folder, "net.v")) as file:
        found = re.findall(r"^  ([A-Z][A-Z0-9]+) (?:#\(|[\\_a-zA-Z])", file.read(), re.M)
    return sorted(set(found)), len(found)


def both(program, folder, top, ports, clocks):
    """What the program and Icarus print for the netlist in the folder, as the last words of a row of the table."""
    given = rows(inputs_of(ports), clocks, top)
    shown, error = by_program(program, folder, top, ports, given)
    same = shown == by_icarus(folder, top, ports, given)
    return f"{clocks} | {'equal' if same else error or 'DIFFERENT'} |", same


def synthesized(program, source, top, flatten, clocks):
    """A row of the table for a design, and whether the texts are equal."""
    with tempfile.TemporaryDirectory() as folder:
        ports = synthesize(folder, source, top, flatten)
        answer, same = both(program, folder, top, ports, clocks)
        kinds, count = cells_of(folder)
    return f"| {top} | {'flat' if flatten else 'hierarchy'} | {count} | {' '.join(kinds)} | {answer}", same


def drawn(program, seed, cells, clocks):
    """Whether the texts are equal for a netlist that is drawn at random."""
    with tempfile.TemporaryDirectory() as folder:
        text, ports = random_netlists.netlist(seed, cells)
        with open(os.path.join(folder, "net.v"), "w") as out:
            out.write(text)
        answer, same = both(program, folder, "drawn", ports, clocks)
        if not same:
            print(f"| drawn, seed {seed} | random | | | {answer}", flush=True)
        return same


def main():
    lacking = [tool for tool in TOOLS if not shutil.which(tool)]
    if lacking:
        sys.exit(f"compare: there is no {' and no '.join(lacking)} here")
    program, clocks = os.path.abspath(sys.argv[1]), int(sys.argv[2]) if len(sys.argv) > 2 else 1000
    count = int(sys.argv[3]) if len(sys.argv) > 3 else 100
    folder, all_same = os.path.abspath(os.path.join("measure", "designs")), True
    print("| Design | Form | Cells | Kinds | Clocks | Outputs |")
    print("|---|---|---|---|---|---|")
    for name in sorted(os.listdir(folder)):
        for flatten in (False, True):
            line, same = synthesized(program, os.path.join(folder, name), name.removesuffix(".v"), flatten, clocks)
            all_same = all_same and same
            print(line, flush=True)
    equal = sum(drawn(program, seed, 20 + 3 * seed, clocks) for seed in range(count))
    print(f"\nDrawn at random: {equal} of {count} equal, over {clocks} clocks each.")
    sys.exit(0 if all_same and equal == count else 1)


main()
