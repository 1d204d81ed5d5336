"""Programs whose speed is measured: texts in Instruction List, and for some the image that the assembler makes of them."""

TYPES = {"BOOL": 0, "INT": 2, "DINT": 3}
OPERATORS = {"AND": 0x0E, "ADD": 0x11, "SUB": 0x12, "MUL": 0x13, "DIV": 0x14, "GT": 0x16, "MIN": 0x1C, "MAX": 0x1D}


class Program:
    """A program with its code, so that another interpreter can run what the machine runs."""

    def __init__(self, variables):
        self.variables = variables  # name, type, low end, high end
        self.places = {variable[0]: place for place, variable in enumerate(variables)}
        self.lines = []
        self.code = bytearray()
        self.counters = 0

    def emit(self, line, code):
        self.lines.append(line)
        self.code += code

    def source(self, operand):
        """The load of a variable, or of a number as a DINT."""
        if isinstance(operand, int):
            return bytes([0x05, TYPES["DINT"]]) + operand.to_bytes(8, "big", signed=True)
        return bytes([0x01]) + self.places[operand].to_bytes(2, "big")

    def load(self, operand):
        self.emit(f"LD {operand}", self.source(operand))

    def apply(self, operator, operand):
        self.emit(f"{operator} {operand}", b"\x0c" + self.source(operand) + bytes([OPERATORS[operator]]))

    def open(self, operator, operand):
        self.emit(f"{operator}( {operand}", b"\x0c" + self.source(operand))

    def close(self, operator):
        self.emit(")", bytes([OPERATORS[operator]]))

    def select(self, if_false, if_true):
        self.emit(f"SEL {if_false}, {if_true}", b"\x0c" + self.source(if_false) + b"\x0c" + self.source(if_true) + b"\x1e")

    def convert(self, old, new):
        self.emit(f"{old}_TO_{new}", bytes([0x20, TYPES[old], TYPES[new]]))

    def store(self, name):
        self.emit(f"ST {name}", bytes([0x06]) + self.places[name].to_bytes(2, "big"))

    def repeat(self, label, turns, address):
        self.emit(f"{{LOOP {turns}}} JMP {label}", bytes([0x26, self.counters, turns]) + address.to_bytes(2, "big"))
        self.counters += 1

    def text(self):
        declared = "".join(f"  {declaration(variable)};\n" for variable in self.variables)
        body = "".join(f"  {line}\n" for line in self.lines)
        return f"PROGRAM measured\nVAR\n{declared}END_VAR\n{body}END_PROGRAM\n"

    def image(self):
        code = bytes(self.code) + b"\x00"
        image = b"ILSC" + bytes([2 if self.counters else 1])
        for count in (len(self.variables), 0, len(code)):
            image += count.to_bytes(2, "big")
        for name, kind, low, high in self.variables:
            image += bytes([len(name)]) + name.encode() + bytes([TYPES[kind]])
            start = 0 if kind == "BOOL" else low
            for number in (low, high, start):
                image += number.to_bytes(8, "big", signed=True)
        return image + code


def declaration(variable):
    name, kind, low, high = variable
    return f"{name} : BOOL" if kind == "BOOL" else f"{name} : {kind} ({low}..{high})"


def plain_variables():
    return [
        *((f"v{n}", "DINT", 0, 1000) for n in range(100)),
        ("divisor", "DINT", 1, 9),
        ("flag", "BOOL", 0, 1),
    ]


def add_group(program, n):
    """Eighteen instructions: sums, least values, comparisons, divisions, stores."""
    a, b, c = f"v{n % 100}", f"v{(n * 7 + 3) % 100}", f"v{(n * 13 + 5) % 100}"
    program.load(a)
    program.apply("ADD", b)
    program.apply("MIN", 1000)
    program.store(c)
    program.load(a)
    program.apply("DIV", "divisor")
    program.store(b)
    program.load(a)
    program.apply("GT", c)
    program.store("flag")


def straight(instructions=10_000):
    """A program without jumps."""
    program = Program(plain_variables())
    for n in range(instructions // 18):
        add_group(program, n)
    return program


def counted_loop(steps=1_000_000):
    """A loop that is gone through 255 times and once more."""
    program = Program(plain_variables())
    program.lines.append("again:")
    for n in range((steps // 256 - 1) // 18):
        add_group(program, n)
    program.repeat("again", 255, 0)
    return program


def mixed(instructions=10_000):
    """SEL, MIN, conversions, and parentheses 32 deep."""
    program = Program([
        *((f"v{n}", "DINT", 0, 10) for n in range(100)),
        ("total", "DINT", 0, 1000),
        ("small", "INT", 0, 1000),
        ("flag", "BOOL", 0, 1),
    ])
    for n in range(instructions // 116):
        program.load(f"v{n % 100}")
        for depth in range(32):
            program.open("ADD", f"v{(n + depth * 3) % 100}")
        for _ in range(32):
            program.close("ADD")
        program.store("total")
        program.load("total")
        program.convert("DINT", "INT")
        program.store("small")
        program.load("total")
        program.apply("GT", 100)
        program.store("flag")
        program.load("flag")
        program.select(f"v{n % 100}", f"v{(n + 1) % 100}")
        program.apply("MIN", 7)
        program.store(f"v{n % 100}")
    return program


def commented(size):
    """A text of so many bytes: instructions between comments."""
    head = "PROGRAM measured\nVAR\n  a : DINT (0..1000);\n  b : DINT (0..1000);\nEND_VAR\n"
    comment = "  (* " + "what the next lines do " * 16 + "*)\n"
    group = comment + "  LD a\n  ADD b\n  MIN 1000\n  ST b\n"
    return head + group * ((size - len(head) - 12) // len(group)) + "END_PROGRAM\n"


def of_code_bytes(size):
    """A program of about so many bytes of code."""
    program = Program(plain_variables())
    n = 0
    while len(program.code) + 46 <= size:
        add_group(program, n)
        n += 1
    return program.text()


def labelled(variables=1000, labels=900):
    """A program with many variables and labels."""
    declared = "".join(f"  x{n} : DINT (0..1000);\n" for n in range(variables))
    lines = []
    for n in range(labels):
        lines.append(f"  LD x{n % variables}\n  GT 500\n  JMPC l{n}\n  LD x{n % variables}\n  ST x{(n + 1) % variables}\nl{n}:\n")
    return f"PROGRAM measured\nVAR\n{declared}END_VAR\n{''.join(lines)}END_PROGRAM\n"


def long_names(uses):
    """1,024 variables of 31 letters, and so many uses of the last two."""
    names = ["v" * 27 + letters(n) for n in range(1024)]
    declared = "".join(f"  {name} : DINT (0..1000);\n" for name in names)
    lines = f"  LD {names[-1]}\n  ST {names[-2]}\n" * (uses // 2)
    return f"PROGRAM measured\nVAR\n{declared}END_VAR\n{lines}END_PROGRAM\n"


def letters(n):
    return "".join(chr(ord("a") + n // 26**power % 26) for power in (3, 2, 1, 0))


def far_jumps(count):
    """So many labels, and as many jumps to the last one."""
    declared = "  flag : BOOL;\n"
    lines = "".join(f"l{n}:\n  LD flag\n  JMPC last\n" for n in range(count - 1))
    return f"PROGRAM measured\nVAR\n{declared}END_VAR\n{lines}last:\n  LD flag\n  ST flag\nEND_PROGRAM\n"
