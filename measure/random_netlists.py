"""Structural netlists drawn at random: cells of all kinds, gates, assigns, vectors, concatenations and a hierarchy."""
import random


# The kinds of registers, each with the pin that clears or sets it.
RESETS = {"FDRE": "R", "FDSE": "S", "FDCE": "CLR", "FDPE": "PRE"}


class Draw:
    """One module while it is drawn: its lines, and the bits that are driven so far, as Verilog writes them."""

    def __init__(self, draw, name, inputs, registers, is_top):
        self.draw, self.name, self.lines, self.count = draw, name, [], 0
        # Steady bits cannot glitch in an event simulator, and depend on no other net in the same clock.
        self.inputs, self.bits, self.steady, self.pending = inputs, ["1'b0", "1'b1"], ["1'b0"], []
        for port, bounds in inputs:
            self.bits += bits_of(port, bounds)
            self.steady += bits_of(port, bounds) if is_top else []
        for _ in range(registers):
            net, kind = self.scalar(), draw.choice(list(RESETS))
            self.pending.append((kind, net))
            self.bits.append(net)
            self.steady += [net] if kind in ("FDRE", "FDSE") else []

    def fresh(self, letter):
        self.count += 1
        return f"{letter}{self.count}"

    def scalar(self):
        """A new net of one bit. Some have an escaped name."""
        net = self.fresh("n")
        if self.draw.random() < 0.1:
            net = f"\\{net}.[x] "
        self.lines.append(f"  wire {net};")
        return net

    def vector(self, width):
        """A new net of so many bits, whose indices fall or rise, with its bits from the most significant on."""
        net, low = self.fresh("v"), self.draw.randrange(20)
        bounds = (low + width - 1, low) if self.draw.random() < 0.7 else (low, low + width - 1)
        self.lines.append(f"  wire [{bounds[0]}:{bounds[1]}] {net};")
        return net, bits_of(net, bounds)

    def bit(self):
        return self.draw.choice(self.bits)

    def some(self, count):
        return ", ".join(self.bit() for _ in range(count))

    def instance(self, kind, params, pins):
        shown = f" #({', '.join(f'.{name}({value})' for name, value in params)})" if params else ""
        self.draw.shuffle(pins)
        self.lines.append(f"  {kind}{shown} {self.fresh('u')} ({', '.join(f'.{pin}({value})' for pin, value in pins)});")

    def lut(self):
        size, out = self.draw.randint(1, 6), self.scalar()
        init = self.draw.getrandbits(1 << size)
        spelled = f"{1 << size}'h{init:x}" if self.draw.random() < 0.8 else f"{1 << size}'b{init:b}"
        self.instance(f"LUT{size}", [("INIT", spelled)], [(f"I{k}", self.bit()) for k in range(size)] + [("O", out)])
        self.bits.append(out)

    def mux(self):
        out = self.scalar()
        self.instance(self.draw.choice(["MUXF7", "MUXF8"]), [], [("I0", self.bit()), ("I1", self.bit()), ("S", self.bit()), ("O", out)])
        self.bits.append(out)

    def carry(self):
        sums, outs = self.vector(4), self.vector(4)
        pins = [("CI", self.bit()), ("CYINIT", self.bit()), ("DI", f"{{{self.some(4)}}}"), ("S", f"{{{self.some(4)}}}"), ("O", sums[0]), ("CO", outs[0])]
        self.instance("CARRY4", [], pins)
        self.bits += sums[1] + outs[1]

    def buffer(self):
        kind, out = self.draw.choice(["INV", "IBUF", "OBUF"]), self.scalar()
        self.instance(kind, [], [("I", self.bit()), ("O", out)])
        self.bits.append(out)

    def constant(self):
        kind, pin = self.draw.choice([("GND", "G"), ("VCC", "P")])
        out = self.scalar()
        self.instance(kind, [], [(pin, out)])
        self.bits.append(out)

    def gate(self):
        kind = self.draw.choice(["and", "nand", "or", "nor", "xor", "xnor", "buf", "not"])
        if kind in ("buf", "not"):
            outs = [self.scalar() for _ in range(self.draw.randint(1, 3))]
            self.lines.append(f"  {kind} ({', '.join(outs + [self.bit()])});")
        else:
            outs = [self.scalar()]
            self.lines.append(f"  {kind} {self.fresh('g')} ({outs[0]}, {self.some(self.draw.randint(2, 5))});")
        self.bits += outs

    def assign(self):
        width = self.draw.randint(2, 8)
        net, bits = self.vector(width)
        cut = self.draw.randint(1, width - 1)
        number = self.draw.getrandbits(cut)
        target = net if self.draw.random() < 0.5 else "{" + ", ".join(bits) + "}"
        self.lines.append(f"  assign {target} = {{{cut}'d{number}, {self.some(width - cut)}}};")
        self.bits += bits

    def child(self, module):
        """An instance of another module, by names or by position."""
        out, bits = self.vector(6)
        values = ["clk", f"{{{self.some(4)}}}", self.bit(), out]
        if self.draw.random() < 0.5:
            self.lines.append(f"  {module} {self.fresh('u')} ({', '.join(values)});")
        else:
            self.instance(module, [], list(zip(["clk", "d", "e", "q"], values)))
        self.bits += bits

    def register(self, kind, out):
        reset = self.draw.choice(self.steady) if kind in ("FDCE", "FDPE") else self.bit()
        pins = [("C", "clk"), ("CE", self.bit()), ("D", self.bit()), (RESETS[kind], reset), ("Q", out)]
        self.instance(kind, [("INIT", f"1'b{self.draw.getrandbits(1)}")], pins)

    def grow(self, cells, children):
        makers = [self.lut] * 8 + [self.mux, self.carry, self.buffer, self.constant, self.gate, self.gate, self.assign, self.assign]
        for _ in range(cells):
            self.draw.choice(makers)()
            if children and self.draw.random() < 0.05:
                self.child(self.draw.choice(children))
        for kind, net in self.pending:
            self.register(kind, net)

    def text(self, outputs):
        """The module, whose outputs have these names and widths, each bit some bit of the module."""
        header = ", ".join(["clk"] + [name for name, _ in self.inputs] + [name for name, _ in outputs])
        lines = [f"module {self.name} ({header});", "  input clk;"]
        lines += [f"  input {range_of(bounds)}{name};" for name, bounds in self.inputs]
        lines += [f"  output {range_of((width - 1, 0) if width > 1 else None)}{name};" for name, width in outputs]
        ends = [f"  assign {name} = {{{self.some(width)}}};" for name, width in outputs]
        return "\n".join(lines + self.lines + ends + ["endmodule", ""])


def range_of(bounds):
    return f"[{bounds[0]}:{bounds[1]}] " if bounds else ""


def bits_of(name, bounds):
    """The bits of a net, the most significant first."""
    if bounds is None:
        return [name]
    step = -1 if bounds[0] >= bounds[1] else 1
    return [f"{name}[{k}]" for k in range(bounds[0], bounds[1] + step, step)]


def netlist(seed, cells):
    """A text whose top is `drawn`, and the top's ports in the order of its header: name, whether it is an output, width."""
    draw, texts, children = random.Random(seed), [], []
    for level in range(3):
        part = Draw(draw, f"part{level}", [("d", (3, 0)), ("e", None)], 2, False)
        part.grow(cells // 20 + 2, children)
        texts.append(part.text([("q", 6)]))
        children.append(f"part{level}")
    inputs = [("a", (7, 0)), ("b", (2, 6)), ("c", None)]
    top = Draw(draw, "drawn", inputs, cells // 5 + 2, True)
    top.grow(cells, children)
    outputs = [("x", 24), ("y", 1), ("z", 7)]
    texts.append(top.text(outputs))
    draw.shuffle(texts)
    ports = [("clk", False, 1), ("a", False, 8), ("b", False, 5), ("c", False, 1)] + [(name, True, width) for name, width in outputs]
    return "".join(texts), ports
