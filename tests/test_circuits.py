"""Everyday circuits: each has its answer, by solve without options or with the option that its message names.

What is expected are the values of the circuit itself, as a function of whole numbers: the printed polynomials are
evaluated at random points. The descriptions are rows that are made here, or what yosys and ABC write of Verilog.
"""

import itertools
import os
import random
import re
import subprocess
import sys

from bench.make_files import rijndael
from tests.harness import TOP, InFolder, installed, program

POINTS = 256

# Circuits as rows: a name, the names of inputs and of outputs, the type, the rows, and the function of numbers.
# Circuits in Verilog: a name, the ports, the body, and the function of numbers.


def bits(name, count):
    return [f"{name}[{place}]" for place in range(count)]


def point_rows(inputs, function, outputs, widths):
    """A row for each point of a function."""
    for values in itertools.product("01", repeat=len(inputs)):
        found = function(**numbers(zip(inputs, map(int, values))))
        digits = [str(found[name] >> place & 1) for name in outputs for place in range(widths[name])]
        yield "".join(values), "".join(digits)


def numbers(values):
    """Numbers from values of bits: a[2] is bit 2 of a."""
    found = {}
    for name, value in values:
        parts = re.fullmatch(r"(\w+)\[(\d+)\]", name)
        base, place = (parts[1], int(parts[2])) if parts else (name, 0)
        found[base] = found.get(base, 0) | int(value) << place
    return found


def multiplexer_rows(selects, data_first):
    """One row for each data input."""
    count = 1 << selects
    for chosen in range(count):
        data = "".join("1" if place == chosen else "-" for place in range(count))
        code = "".join(str(chosen >> place & 1) for place in range(selects))
        yield (data + code if data_first else code + data), "1"


def priority_rows(count):
    """The highest input that is 1, from the lowest up: its number and whether there is one."""
    width = (count - 1).bit_length()
    for place in range(count):
        number = "".join(str(place >> bit & 1) for bit in range(width))
        yield "-" * place + "1" + "0" * (count - 1 - place), number + "1"


def highest(x):
    return {"n": max(x.bit_length() - 1, 0), "v": int(x != 0)}


def greater_rows(width):
    """Whether a is greater than b, whose bits stand side by side with the highest first: by the first bit in which they
    differ."""
    for place in range(width):
        for same in itertools.product(("00", "11"), repeat=place):
            yield "".join(same) + "10" + "--" * (width - 1 - place), "1"


def side_by_side(width):
    return [f"{name}[{place}]" for place in reversed(range(width)) for name in "ab"]


def decoder_rows(width, enable):
    for code in range(1 << width):
        inputs = ("1" if enable else "") + "".join(str(code >> place & 1) for place in range(width))
        yield inputs, "".join("1" if place == code else "0" for place in range(1 << width))


def parity_rows(count):
    for values in itertools.product("01", repeat=count):
        if values.count("1") % 2:
            yield "".join(values), "1"


ROWS = [
    ("multiplexer of 32, data first", bits("d", 32) + bits("s", 5), ["y"], "f", lambda: multiplexer_rows(5, True),
     lambda d, s: {"y": d >> s & 1}),
    ("multiplexer of 32, selects first", bits("s", 5) + bits("d", 32), ["y"], "f", lambda: multiplexer_rows(5, False),
     lambda d, s: {"y": d >> s & 1}),
    ("priority encoder of 16", bits("x", 16), bits("n", 4) + ["v"], "f", lambda: priority_rows(16), highest),
    ("priority encoder of 40", bits("x", 40), bits("n", 6) + ["v"], "f", lambda: priority_rows(40), highest),
    ("comparator of 12 bits", side_by_side(12), ["y"], "f", lambda: greater_rows(12), lambda a, b: {"y": int(a > b)}),
    ("decoder of 5 bits", bits("a", 5), bits("y", 32), "fd", lambda: decoder_rows(5, False), lambda a: {"y": 1 << a}),
    ("decoder of 6 bits with enable", ["e"] + bits("a", 6), bits("y", 64), "fd", lambda: decoder_rows(6, True),
     lambda a, e: {"y": e << a}),
    ("parity of 14", bits("x", 14), ["y"], "f", lambda: parity_rows(14), lambda x: {"y": bin(x).count("1") % 2}),
    ("parity of 16", bits("x", 16), ["y"], "f", lambda: parity_rows(16), lambda x: {"y": bin(x).count("1") % 2}),
    ("and of 62", bits("x", 62), ["y"], "f", lambda: [("1" * 62, "1")], lambda x: {"y": int(x == 2**62 - 1)}),
    ("or of 62", bits("x", 62), ["y"], "f",
     lambda: [("-" * place + "1" + "-" * (61 - place), "1") for place in range(62)], lambda x: {"y": int(x != 0)}),
    ("address of 32 bits", bits("a", 32), ["y"], "f", lambda: [("-" * 12 + "0" * 19 + "1", "1")],
     lambda a: {"y": int(a >> 12 == 1 << 19)}),
    ("S-box of AES, as one table", bits("x", 8), bits("y", 8), "fr",
     lambda: point_rows(bits("x", 8), lambda x: {"y": rijndael(x)}, ["y"], {"y": 8}), lambda x: {"y": rijndael(x)}),
    ("product of 4 bits", bits("a", 4) + bits("b", 4), bits("p", 8), "fr",
     lambda: point_rows(bits("a", 4) + bits("b", 4), lambda a, b: {"p": a * b}, ["p"], {"p": 8}),
     lambda a, b: {"p": a * b}),
    ("quotient of 6 bits", bits("a", 6) + bits("b", 4), bits("q", 6), "fr",
     lambda: point_rows(bits("a", 6) + bits("b", 4), quotient, ["q"], {"q": 6}), lambda a, b: quotient(a, b)),
    ("binary to decimal", bits("a", 8), bits("u", 4) + bits("t", 4) + bits("h", 4), "fr",
     lambda: point_rows(bits("a", 8), decimal, ["u", "t", "h"], {"u": 4, "t": 4, "h": 4}), lambda a: decimal(a)),
]  # fmt: skip


def quotient(a, b):
    return {"q": a // b if b else 0}


def decimal(a):
    return {"u": a % 10, "t": a // 10 % 10, "h": a // 100}


VERILOG = [
    ("adder of 4 bits", "input [3:0] a, input [3:0] b, input c, output [4:0] s", "assign s = a + b + c;",
     lambda a, b, c: {"s": a + b + c}),
    ("adder of 8 bits", "input [7:0] a, input [7:0] b, input c, output [8:0] s", "assign s = a + b + c;",
     lambda a, b, c: {"s": a + b + c}),
    ("adder of 10 bits", "input [9:0] a, input [9:0] b, output [10:0] s", "assign s = a + b;",
     lambda a, b: {"s": a + b}),
    ("subtractor of 8 bits", "input [7:0] a, input [7:0] b, output [7:0] d, output w", "assign {w, d} = a - b;",
     lambda a, b: {"d": (a - b) % 256, "w": int(a < b)}),
    ("adder and subtractor of 6 bits", "input [5:0] a, input [5:0] b, input m, output [5:0] s",
     "assign s = m ? a - b : a + b;",
     lambda a, b, m: {"s": (a - b if m else a + b) % 64}),
    ("adder that saturates", "input [6:0] a, input [6:0] b, output [6:0] s",
     "wire [7:0] t = a + b; assign s = t[7] ? 7'd127 : t[6:0];", lambda a, b: {"s": min(a + b, 127)}),
    ("increment of 16 bits", "input [15:0] a, output [15:0] s", "assign s = a + 16'd1;",
     lambda a: {"s": (a + 1) % 65536}),
    ("negative of 12 bits", "input [11:0] a, output [11:0] s", "assign s = -a;", lambda a: {"s": -a % 4096}),
    ("magnitude of 10 bits", "input [9:0] a, output [9:0] s", "assign s = a[9] ? -a : a;",
     lambda a: {"s": (-a if a >> 9 else a) % 1024}),
    ("less of 8 bits", "input [7:0] a, input [7:0] b, output y", "assign y = a < b;", lambda a, b: {"y": int(a < b)}),
    ("less of 10 bits with signs", "input signed [9:0] a, input signed [9:0] b, output y", "assign y = a < b;",
     lambda a, b: {"y": int((a ^ 512) < (b ^ 512))}),
    ("equality of 8 bits", "input [7:0] a, input [7:0] b, output y", "assign y = a == b;",
     lambda a, b: {"y": int(a == b)}),
    ("equality of 12 bits", "input [11:0] a, input [11:0] b, output y", "assign y = a == b;",
     lambda a, b: {"y": int(a == b)}),
    ("greater of two numbers", "input [6:0] a, input [6:0] b, output [6:0] y", "assign y = a > b ? a : b;",
     lambda a, b: {"y": max(a, b)}),
    ("multiplexer of 16", "input [15:0] d, input [3:0] s, output y", "assign y = d[s];",
     lambda d, s: {"y": d >> s & 1}),
    ("multiplexer of 32", "input [31:0] d, input [4:0] s, output y", "assign y = d[s];",
     lambda d, s: {"y": d >> s & 1}),
    ("multiplexer of 8 words", "input [31:0] d, input [2:0] s, output [3:0] y", "assign y = d[s*4 +: 4];",
     lambda d, s: {"y": d >> 4 * s & 15}),
    ("shifter of 16 bits", "input [15:0] a, input [3:0] n, output [15:0] y", "assign y = a << n;",
     lambda a, n: {"y": (a << n) % 65536}),
    ("shifter of 32 bits", "input [31:0] a, input [4:0] n, output [31:0] y", "assign y = a >> n;",
     lambda a, n: {"y": a >> n}),
    ("arithmetic shifter of 16 bits", "input signed [15:0] a, input [3:0] n, output [15:0] y", "assign y = a >>> n;",
     lambda a, n: {"y": ((a - 65536 if a >> 15 else a) >> n) % 65536}),
    ("rotation of 32 bits", "input [31:0] a, input [4:0] n, output [31:0] y", "assign y = a << n | a >> (6'd32 - n);",
     lambda a, n: {"y": (a << n | a >> (32 - n)) % 2**32}),
    ("leading zeros of 16 bits", "input [15:0] a, output reg [4:0] y",
     "integer k; always @* begin y = 16; for (k = 0; k < 16; k = k + 1) if (a[k]) y = 15 - k; end",
     lambda a: {"y": 16 - a.bit_length()}),
    ("priority encoder of 8", "input [7:0] x, output reg [2:0] n, output v",
     "integer k; always @* begin n = 0; for (k = 0; k < 8; k = k + 1) if (x[k]) n = k; end assign v = |x;", highest),
    ("count of ones of 8 bits", "input [7:0] a, output [3:0] y", "assign y = a[0]+a[1]+a[2]+a[3]+a[4]+a[5]+a[6]+a[7];",
     lambda a: {"y": bin(a).count("1")}),
    ("majority of 9", "input [8:0] a, output y", "assign y = (a[0]+a[1]+a[2]+a[3]+a[4]+a[5]+a[6]+a[7]+a[8]) > 4;",
     lambda a: {"y": int(bin(a).count("1") > 4)}),
    ("Gray code to binary, 12 bits", "input [11:0] g, output [11:0] b",
     "genvar k; generate for (k = 0; k < 12; k = k + 1) assign b[k] = ^(g >> k); endgenerate",
     lambda g: {"b": gray_to_binary(g)}),
    ("binary to Gray code, 32 bits", "input [31:0] b, output [31:0] g", "assign g = b ^ (b >> 1);",
     lambda b: {"g": b ^ b >> 1}),
    ("digits to binary", "input [3:0] t, input [3:0] u, output [7:0] y", "assign y = t * 10 + u;",
     lambda t, u: {"y": t * 10 + u}),
    ("ALU of 4 bits", "input [3:0] a, input [3:0] b, input [2:0] op, output reg [3:0] y", """always @* case (op)
     0: y = a + b; 1: y = a - b; 2: y = a & b; 3: y = a | b; 4: y = a ^ b; 5: y = ~a; 6: y = a << 1; default: y = a < b;
     endcase""", lambda a, b, op: {"y": alu(a, b, op, 4)}),
    ("ALU of 8 bits", "input [7:0] a, input [7:0] b, input [2:0] op, output reg [7:0] y", """always @* case (op)
     0: y = a + b; 1: y = a - b; 2: y = a & b; 3: y = a | b; 4: y = a ^ b; 5: y = ~a; 6: y = a << 1; default: y = a < b;
     endcase""", lambda a, b, op: {"y": alu(a, b, op, 8)}),
    ("counter of 16 bits", "input [15:0] q, input [15:0] d, input load, input enable, input reset, output [15:0] n",
     "assign n = reset ? 0 : load ? d : enable ? q + 16'd1 : q;",
     lambda q, d, load, enable, reset: {"n": 0 if reset else d if load else (q + enable) % 65536}),
    ("counter of digits", "input [3:0] q, input up, output reg [3:0] n",
     "always @* if (up) n = q == 9 ? 0 : q + 4'd1; else n = q == 0 ? 9 : q - 4'd1;",
     lambda q, up: {"n": (0 if q == 9 else (q + 1) % 16) if up else 9 if q == 0 else q - 1}),
    ("shift register with feedback", "input [30:0] q, input enable, output [30:0] n",
     "assign n = enable ? {q[29:0], q[30] ^ q[27]} : q;",
     lambda q, enable: {"n": (q << 1 | (q >> 30 ^ q >> 27) & 1) % 2**31 if enable else q}),
    ("checksum of 8 bits, a step", "input [7:0] c, input [7:0] d, output reg [7:0] n",
     "integer k; always @* begin n = c ^ d; "
     "for (k = 0; k < 8; k = k + 1) n = {n[6:0], 1'b0} ^ (n[7] ? 8'h07 : 8'h00); end",
     lambda c, d: {"n": checksum(c ^ d)}),
    ("product of 5 bits", "input [4:0] a, input [4:0] b, output [9:0] p", "assign p = a * b;",
     lambda a, b: {"p": a * b}),
    ("product of 6 bits", "input [5:0] a, input [5:0] b, output [11:0] p", "assign p = a * b;",
     lambda a, b: {"p": a * b}),
    ("square of 9 bits", "input [8:0] a, output [17:0] p", "assign p = a * a;", lambda a: {"p": a * a}),
    ("correction of a code of 7 bits", "input [6:0] r, output [6:0] y", """wire [2:0] s;
     assign s = {r[3]^r[4]^r[5]^r[6], r[1]^r[2]^r[5]^r[6], r[0]^r[2]^r[4]^r[6]};
     assign y = s == 0 ? r : r ^ (7'd1 << (s - 3'd1));""", lambda r: {"y": corrected(r)}),
    ("arbiter of 4", "input [3:0] r, input [1:0] last, output reg [3:0] g", """
     integer k; reg [1:0] at; always @* begin g = 0;
     for (k = 4; k > 0; k = k - 1) begin at = last + k; if (r[at]) g = 4'd1 << at; end end""",
     lambda r, last: {"g": next((1 << (last + k) % 4 for k in (1, 2, 3, 4) if r >> (last + k) % 4 & 1), 0)}),
    ("one of 16", "input [15:0] a, output y", "assign y = a != 0 && (a & (a - 16'd1)) == 0;",
     lambda a: {"y": int(bin(a).count("1") == 1)}),
    ("address in a range", "input [23:0] a, output y", "assign y = a >= 24'h800000 && a < 24'h900000;",
     lambda a: {"y": int(0x800000 <= a < 0x900000)}),
    ("crossing of two words", "input [15:0] a, input [15:0] b, input s, output [15:0] x, output [15:0] y",
     "assign x = s ? b : a; assign y = s ? a : b;", lambda a, b, s: {"x": b if s else a, "y": a if s else b}),
]  # fmt: skip


def gray_to_binary(g):
    b = 0
    while g:
        b ^= g
        g >>= 1
    return b


def alu(a, b, op, width):
    found = (a + b, a - b, a & b, a | b, a ^ b, ~a, a << 1, int(a < b))[op]
    return found % (1 << width)


def checksum(n):
    for _ in range(8):
        n = (n << 1) & 255 ^ (7 if n >> 7 else 0)
    return n


def corrected(r):
    bit = [r >> k & 1 for k in range(7)]
    checks = ((0, 2, 4, 6), (1, 2, 5, 6), (3, 4, 5, 6))
    s = sum((sum(bit[k] for k in places) & 1) << place for place, places in enumerate(checks))
    return r ^ (1 << (s - 1)) if s else r


def polynomial_value(text, columns, everywhere):
    """The values of a printed polynomial at all points of some columns."""
    total = 0
    for term in text.split(" + ") if text != "0" else ():
        product = everywhere
        for name in term.split("*") if term != "1" else ():
            product &= columns[name[1:]] ^ everywhere if name.startswith("~") else columns[name]
        total ^= product
    return total


class Circuits(InFolder):
    """Circuits as rows and in Verilog."""

    def setUp(self):
        super().setUp()
        self.file = self.here / "circuit.pla"

    def solve(self, *options):
        words = [sys.executable, TOP / "tools/solve", *options, self.file]
        environment = {**os.environ, "INTERP": program("interp")}
        return subprocess.run(words, capture_output=True, text=True, check=False, env=environment)

    def answered(self):
        """The lines of the answer, by solve without options or with the option that its message names."""
        run = self.solve()
        if run.returncode:
            option = re.search(r"--polarity auto|--order auto", run.stderr)
            self.assertTrue(option, run.stderr)
            run = self.solve(*option[0].split())
        self.assertEqual(run.returncode, 0, run.stderr)
        return [line.split(" = ") for line in run.stdout.splitlines()]

    def compare(self, inputs, function):
        """The answer's values at random points are those of the function."""
        draws = random.Random(1)
        everywhere = (1 << POINTS) - 1
        columns = {name: draws.getrandbits(POINTS) for name in inputs}
        expected = {}
        for place in range(POINTS):
            values = function(**numbers((name, columns[name] >> place & 1) for name in inputs))
            for name, value in values.items():
                expected.setdefault(name, []).append(value)
        lines = self.answered()
        outputs = re.search(r"^\.ob (.*)$", self.file.read_text(), re.MULTILINE)[1].split()
        self.assertEqual([name for name, _ in lines], outputs)
        self.assertEqual(sorted({re.sub(r"\[\d+\]", "", name) for name in outputs}), sorted(expected))
        for name, text in lines:
            base, _, place = name.rstrip("]").partition("[")
            column = polynomial_value(text, columns, everywhere)
            for point, value in enumerate(expected[base]):
                self.assertEqual(column >> point & 1, value >> int(place or 0) & 1, f"{name} at point {point}")

    def test_rows(self):
        for name, inputs, outputs, kind, rows, function in ROWS:
            with self.case(name):
                lines = [f".i {len(inputs)}", f".o {len(outputs)}", f".type {kind}", ".ilb " + " ".join(inputs)]
                lines += [".ob " + " ".join(outputs), *(f"{row} {value}" for row, value in rows()), ".e", ""]
                self.file.write_text("\n".join(lines))
                self.compare(inputs, function)

    def test_verilog(self):
        yosys, abc = installed("yosys"), installed("berkeley-abc")
        for name, ports, body, function in VERILOG:
            with self.case(name):
                source, graph = self.file.with_suffix(".v"), self.file.with_suffix(".aig")
                source.write_text(f"module circuit({ports});\n{body}\nendmodule\n")
                script = f"read_verilog {source}; synth -flatten; aigmap; write_aiger -symbols {graph}"
                subprocess.run([yosys, "-q", "-p", script], check=True, capture_output=True)
                script = f"read_aiger {graph}; collapse; write_pla {self.file}"
                subprocess.run([abc, "-q", script], check=True, capture_output=True)
                inputs = re.search(r"^\.ilb (.*)$", self.file.read_text(), re.MULTILINE)[1].split()
                self.compare(inputs, function)
