"""The traces that runs of packets have to have (docs/TRACE.md), computed over the interpreter of tests/flown.

Texts of packets are read in which each instruction names its unit, and listings. Each run is told event by event as the interpreter
goes, and c62 isn't asked.
"""

import importlib.machinery
import importlib.util
import math
import pathlib
import re
import sys

HERE = pathlib.Path(__file__).resolve().parent


def neighbour(name):
    """A script of this folder as a module, of which nothing is kept beside it."""
    sys.dont_write_bytecode = True
    loader = importlib.machinery.SourceFileLoader(name, str(HERE / name))
    module = importlib.util.module_from_spec(importlib.util.spec_from_loader(loader.name, loader))
    loader.exec_module(module)
    return module


flown = neighbour("flown")
WORD, UNITS, signed = flown.WORD, flown.UNITS, flown.signed
REGISTERS = [f"{side}{number}" for side in "AB" for number in range(16)]

# The operations that flown lacks. Of one source the second is 0; of a field its two constants make one.
flown.SIMPLE.update({
    "ABS": lambda a, b: min(abs(signed(a)), 0x7FFFFFFF),
    "ADD2": lambda a, b: a + b & 0xFFFF | (a >> 16) + (b >> 16) << 16,
    "SUB2": lambda a, b: a - b & 0xFFFF | (a >> 16) - (b >> 16) << 16,
    "SHL": lambda a, b: a << (b & 63),
    "SHR": lambda a, b: signed(a) >> (b & 63),
    "SHRU": lambda a, b: a >> (b & 63),
    "EXT": lambda a, b: signed(a << (b >> 5)) >> (b & 31),
    "EXTU": lambda a, b: (a << (b >> 5) & WORD) >> (b & 31),
    "MPYUS": lambda a, b: (a & 0xFFFF) * signed(b, 16),
    "MPYSU": lambda a, b: signed(a, 16) * (b & 0xFFFF),
    "MPYHU": lambda a, b: (a >> 16) * (b >> 16),
    "MPYHL": lambda a, b: signed(a >> 16, 16) * signed(b, 16),
    "ADDAB": lambda a, b: a + b,
    "ADDAH": lambda a, b: a + 2 * b,
    "ADDAW": lambda a, b: a + 4 * b,
})


# ---- texts


def access_of(unit, name, parts, cond):
    store = name.startswith("ST")
    address, data = parts[::-1] if store else parts
    before, base, behind, offset = re.fullmatch(r"\*(\+\+|--|\+|-)?(\w\d+)(\+\+|--)?(?:\[(\w+)\])?", address).groups()
    mode = f"P{behind[0]}" if behind else before or "+"
    offset = offset or ("1" if behind or before in ("++", "--") else "0")
    reads = [data] * store + [base] + [offset] * (offset in REGISTERS)
    offset = offset if offset in REGISTERS else int(offset, 0)
    size = {"W": 4, "H": 2, "B": 1}[name[2]]
    return flown.Insn(unit, name, ",".join(parts), cond, kind="store" if store else "load", size=size, data=data, base=base, mode=mode,
                      offset=offset, reads=reads)


def insn_of(cond, name, unit, operands):
    """An instruction of which the unit is written, as flown has it."""
    name = {"CALL": "B", "RET": "B"}.get(name, name)
    *parts, to = operands.split(",")
    if name == "MV":
        name, parts = "ADD", [*parts, "0"] if unit[0] == "D" else ["0", *parts]
    if name == "ZERO":
        name, parts = "SUB", [to, to]
    if name[:2] in ("LD", "ST"):
        return access_of(unit, name, [*parts, to], cond)
    if name == "B":
        source = [to] if to in REGISTERS else []
        return flown.Insn(unit, name, to, cond, kind="branch", reads=source, source=to, label=None if source else to)
    operands, reads = ",".join([*parts, to]), [it for it in parts if it in REGISTERS]
    if name in ("MVKL", "MVKH"):
        return flown.Insn(unit, name, operands, cond, kind="constant", word=parts[0], to=to, reads=[to] * (name == "MVKH"))
    if name in ("MVK", "MVKLH", "ADDK"):
        return flown.Insn(unit, name, operands, cond, kind="constant", value=int(parts[0], 0), to=to, reads=[to] * (name != "MVK"))
    sources = [it if it in REGISTERS else int(it, 0) for it in parts]
    if name in ("EXT", "EXTU"):
        sources = [sources[0], sources[1] * 32 + sources[2]]
    return flown.Insn(unit, name, operands, cond, kind="simple", sources=(*sources, 0)[:2], to=to, reads=reads)


LINE = re.compile(r"(?:(\w+):)?\s*(?:(\|\|)?\s*(?:\[(!?\w+)\])?\s*(\w+)(?:\s+\.(\w\d)\w*)?\s*(\S*))?")


def read_text(lines, above=0):
    """The rows of lines that stand below so many others, each of which names its unit."""
    text = flown.Text()
    for number, line in enumerate(lines, above + 1):
        label, bars, cond, name, unit, operands = LINE.fullmatch(line.partition(";")[0].strip()).groups()
        if label:
            text.labels[label] = len(text.rows)
        if not name:
            continue
        insns, idle = text.rows.pop() if bars else ([], 0)
        if name == "NOP":
            idle = int(operands or 1) - 1
        else:
            insns.append(insn_of(cond, name, unit, operands))
            insns[-1].line = number
        text.rows.append((insns, idle))
    text.rows = [(sorted(insns, key=lambda it: UNITS.index(it.unit)), idle) for insns, idle in text.rows]
    flown.set_words(text)
    return text


def read_listing(listing):
    """The blocks of a listing, each with its label. Of each instruction the spelling is kept; a branch ends its block."""
    blocks, above = [], 0
    for part in listing.split("\n\n") if listing else []:
        lines = part.strip("\n").split("\n")
        text = read_text(lines, above)
        for insns, _ in text.rows:
            for insn in insns:
                insn.listed = lines[insn.line - above - 1][3:]
                if insn.kind == "branch":
                    insn.label = "out"
        blocks.append((next(iter(text.labels), None), text))
        text.labels = {"out": len(text.rows)}
        above += len(lines) + 1
    return blocks


# ---- traces


def spelled(insn, names):
    """An instruction as it is listed, with these names for labels."""
    if hasattr(insn, "listed"):
        return insn.listed
    name, unit, operands = insn.name, insn.unit, insn.operands
    if insn.kind == "branch":
        operands = names.get(insn.label, operands)
    if hasattr(insn, "word"):
        name, operands = {"MVKL": "MVK", "MVKH": "MVKLH"}[name], f"{insn.value},{insn.to}"
    if insn.kind == "simple" and any(it in REGISTERS and it[0] != "AB"[unit[1] == "2"] for it in insn.sources):
        unit += "X"
    if insn.kind in ("load", "store"):
        unit += "T1" if insn.data[0] == "A" else "T2"
        before, behind = ("", insn.mode[1] * 2) if insn.mode[0] == "P" else (insn.mode, "")
        address = f"*{insn.base}" if (insn.mode, insn.offset) == ("+", 0) else f"*{before}{insn.base}{behind}[{insn.offset}]"
        operands = f"{insn.data},{address}" if insn.kind == "store" else f"{address},{insn.data}"
    return (f"[{insn.cond}] " if insn.cond else "") + f"{name} .{unit} {operands}"


class Tracer(flown.Watch):
    """Writes the trace of a run whose memory begins at a base."""

    def __init__(self, names, base):
        self.names, self.base, self.start, self.gone, self.lines = names, base, 0, None, []

    def tell(self, cycle, said):
        self.lines.append(f"{self.start + cycle:9} {said}")

    def address(self, place, faults=False):
        return f"{self.base + place & WORD:08x}"[0 if self.base or faults else 4 :]

    def issued(self, cycle, insn, read, store, target):
        words = lambda names: "".join(f" {name}={read[name]:08x}" for name in names)
        said, tested = f"line {insn.line:<6} {spelled(insn, self.names):32}", [insn.cond.strip("!")] if insn.cond else []
        if tested and (read[tested[0]] != 0) == insn.cond.startswith("!"):
            self.tell(cycle, f"{said} skipped{words(tested)}")
            return
        said += words(tested + insn.reads)
        if insn.kind in ("load", "store"):
            place = flown.access(insn, read)[0] - self.base & WORD
            faults = place % insn.size or place + insn.size > 65536
            said += f" at {self.address(place, faults)}{' faults' if faults else ''}"
        if insn.kind == "branch":
            said += f" goes in {self.start + cycle + 6}"
            self.gone = insn.operands
        self.tell(cycle, said)
        if store:
            self.tell(cycle, f"stores {self.address(store[0])} = {store[1][::-1].hex()} from line {insn.line}")

    def landed(self, cycle, register, value, line, since):
        self.tell(cycle, f"lands {register} = {value:08x} from line {line} issued {self.start + since}")


def machine_of(words):
    """The machine before a run, by its settings."""
    pairs = [word.split("=", 1) for word in words if "=" in word and word[0] != "-"]
    base = next((int(value, 0) for name, value in pairs if name == "base"), 0)
    settings = [(name, int(value, 0) & WORD) for name, value in pairs if name in REGISTERS]
    settings += [(f"@{int(name[1:], 0) - base}", int(value, 0) & WORD) for name, value in pairs if name[0] == "@"]
    return flown.Machine(settings, base)


def flight(text, words, limit, first=0):
    """The trace of rows in flight. Of labels that name one row the first stands for all."""
    first_of = {row: name for name, row in reversed(text.labels.items())}
    machine = machine_of(words)
    tracer = Tracer({name: first_of[row] for name, row in text.labels.items()}, machine.base)
    flown.fly(text, machine, limit, first, tracer)
    return tracer.lines


def chain(blocks, words, limit):
    """The trace of the blocks of a listing."""
    machine = machine_of(words)
    tracer = Tracer({}, machine.base)
    numbers = {label: number for number, (label, _) in enumerate(blocks) if label}
    number = ran = 0
    while number < len(blocks) and ran < limit:
        tracer.gone = None
        tracer.start, ran = tracer.start + flown.fly(blocks[number][1], machine, math.inf, watch=tracer)[1], ran + 1
        number = number + 1 if tracer.gone is None else numbers.get(tracer.gone, len(blocks))
    return tracer.lines
