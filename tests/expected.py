"""What the texts of examples/ have to give, computed from the algorithms over Python's integers.

No instruction is interpreted here, and c62 isn't asked. Each function below belongs to the text of its name. It
answers the state that the text starts from, the state that it has to leave, and the number of blocks that are run.
Where a text leaves more than its results in registers, these are values of the algorithm too, such as the last product
or a pointer behind an array. Some registers that a text has to clear start with a value that isn't 0.

    python3 tests/expected.py

writes NAME.settings and NAME.report of each text anew, and with --check it writes nothing, and names those that differ.
"""

import binascii
import math
import pathlib
import sys

EXAMPLES = pathlib.Path(__file__).resolve().parent.parent / "examples"
# how many blocks ./kernels lets a text run
LIMIT = 100000
NAMES = [f"{file}{number}" for file in "AB" for number in range(16)]


class State:
    """Registers, memory and faulted lines."""

    def __init__(self, **registers):
        self.registers = registers
        self.memory = bytearray(65536)
        self.faults = []

    def put(self, address, values, size):
        for k, value in enumerate(values):
            place = address + k * size
            self.memory[place : place + size] = (value % 256**size).to_bytes(size, "little")
        return self

    def words(self, address, values):
        return self.put(address, values, 4)

    def halves(self, address, values):
        return self.put(address, values, 2)

    def bytes(self, address, values):
        return self.put(address, values, 1)

    def then(self, **registers):
        """A copy, with these registers set."""
        state = State(**{**self.registers, **registers})
        state.memory[:] = self.memory
        return state

    def memory_words(self):
        """The addresses and values of the words that aren't 0."""
        for address in range(0, 65536, 4):
            value = int.from_bytes(self.memory[address : address + 4], "little")
            if value != 0:
                yield address, value

    def settings(self):
        for name in NAMES:
            if name in self.registers:
                value = self.registers[name]
                yield f"{name}={value}" if value < 256 else f"{name}=0x{value:x}"
        for address, value in self.memory_words():
            yield f"@0x{address:04x}=0x{value:08x}"

    def report(self, blocks, ending="end"):
        yield f"blocks {blocks}"
        yield from self.ended(ending)

    def flight(self, cycles, ending="end"):
        yield f"cycles {cycles}"
        yield from self.ended(ending)

    def ended(self, ending):
        yield f"exit {ending}"
        for name in NAMES:
            value = self.registers.get(name, 0) % 2**32
            if value != 0:
                yield f"{name} {value:08x}"
        for address, value in self.memory_words():
            yield f"@{address:04x} {value:08x}"
        for line in sorted(self.faults):
            yield f"fault {line}"


def pack(high, low):
    """Two halves as a word."""
    return high % 65536 << 16 | low % 65536


def is_half(value):
    return -32768 <= value <= 32767


def saturated(value):
    """The nearest number that a word holds, signed."""
    return min(max(value, -(2**31)), 2**31 - 1)


def signed(word):
    return word - 2**32 if word >= 2**31 else word


def line_of(name, mnemonic):
    """The line of a text in which this mnemonic stands first."""
    lines = (EXAMPLES / f"{name}.s").read_text().splitlines()
    return 1 + next(k for k, line in enumerate(lines) if mnemonic in line and not line.startswith(";"))


def first():
    return State(), State(A1=5, A2=7, A3=5 + 7), 1


def dot():
    x = [3, -1, 32767, -32768, -12345, 20000, -7, 30001]
    y = [-5, -32768, 32767, -32768, 23456, -20001, 9, -30002]
    n = len(x)
    start = State(A1=n, A4=0x100, A6=1, B4=0x200, B6=1).halves(0x100, x).halves(0x200, y)
    products = [a * b for a, b in zip(x, y)]
    end = start.then(
        A1=0,
        A4=0x100 + 2 * n,
        A5=pack(x[-1], x[-2]),
        A6=sum(products),
        A7=products[-2],
        B4=0x200 + 2 * n,
        B5=pack(y[-1], y[-2]),
        B6=sum(products[1::2]),
        B7=products[-1],
    )
    return start, end, 1 + n // 2 + 1


def dot_pipelined():
    x = [5, -6, 32767, -32768, -12345, 20000, -7, 30001, -1, 255, 16384, -28672]
    y = [-5, -32768, 32767, -32768, 23456, -20001, 9, -30002, 7, -256, 3, 32767]
    n = len(x)
    start = State(A1=n, A4=0x1C00, A6=1, B4=0x1C80, B6=1).halves(0x1C00, x).halves(0x1C80, y)
    products = [a * b for a, b in zip(x, y)]
    end = start.then(
        A1=0,
        A4=0x1C00 + 2 * n,
        A5=pack(x[-3], x[-4]),
        A6=sum(products),
        A7=products[-4],
        A8=pack(x[-1], x[-2]),
        A9=products[-2],
        B4=0x1C80 + 2 * n,
        B5=pack(y[-3], y[-4]),
        B6=sum(products[1::2]),
        B7=products[-3],
        B8=pack(y[-1], y[-2]),
        B9=products[-1],
    )
    return start, end, 1 + (n // 4 - 1) + 1


def fir():
    h = [-3277, 9830, 16384, 9831, -3276]
    x = [0, 0, 1, 0, 0, 0, 2, 1, 32767, -32768, 15, -20000, -1, -30000, -29999, 30001]
    taps, older = len(h), len(h) - 1
    outputs = len(x) - older
    start = State(A4=0x400 + 2 * older, A6=0x500, A8=taps, B0=outputs, B4=0x480)
    start.halves(0x400, x).halves(0x480, h)
    y = [(sum(h[k] * x[n - k] for k in range(taps)) + 2**14) >> 15 for n in range(older, len(x))]
    assert all(map(is_half, y))
    end = start.then(
        A1=0,
        A4=0x400 + 2 * len(x),
        A5=0x400 + 2 * (outputs - 2),
        A6=0x500 + 2 * outputs,
        A7=y[-1],
        A9=x[outputs - 1],
        A10=h[-1] * x[outputs - 1],
        B0=0,
        B5=0x480 + 2 * taps,
        B9=h[-1],
    ).halves(0x500, y)
    return start, end, outputs * (1 + taps + 1)


def biquad():
    b0, b1, b2, a1, a2 = -9830, 14745, -6553, -22938, 16057
    inputs = [20000, -20000, 1, -1, 32767, 12345, -32768, 7, -5, -7001]
    x1, x2, y1, y2 = 1200, -801, -500, 901
    n = len(inputs)
    start = State(A1=n, A4=0x602, A6=0x700, B4=0x680, B6=0x70C)
    start.halves(0x602, inputs).halves(0x700, [b0, b1, b2, 0, a1, a2]).halves(0x70C, [x1, x2, y1, y2])
    outputs = []
    for x in inputs:
        older = b1 * x1 + b2 * x2
        forward = b0 * x + older
        total = forward - (a1 * y1 + a2 * y2)
        last = {"b2 x2": b2 * x2, "a2 y2": a2 * y2}
        x1, x2, y1, y2 = x, x1, total >> 15, y1
        assert is_half(y1)
        outputs.append(y1)
    end = start.then(
        A1=0,
        A4=0x602 + 2 * n,
        A5=x1,
        A8=pack(b1, b0),
        A9=b2,
        A10=x1,
        A11=x2,
        A12=forward,
        A13=older,
        A14=last["b2 x2"],
        B4=0x680 + 2 * n,
        B8=pack(a2, a1),
        B10=y1,
        B11=y2,
        B12=total,
        B13=last["a2 y2"],
    ).halves(0x680, outputs).halves(0x70C, [x1, x2, y1, y2])
    return start, end, 1 + n + 1


def complex_product(x, y):
    (a, b), (c, d) = x, y
    return (a * c - b * d, a * d + b * c)


def complex():
    x = [(32767, 0), (-20000, 20000), (-1, 1), (12345, -23456), (-32768, 5), (3, -30000)]
    y = [(-32768, 32767), (20000, -3), (1, 1), (-4321, -8765), (-16384, -32767), (-30000, 29999)]
    n = len(x)

    def words(numbers):
        return [pack(imaginary, real) for real, imaginary in numbers]

    start = State(A1=n, A4=0x800, A8=0x900, B4=0x880).words(0x800, words(x)).words(0x880, words(y))
    products = [complex_product(*pair) for pair in zip(x, y)]
    z = [(real >> 15, imaginary >> 15) for real, imaginary in products]
    assert all(is_half(part) for number in z for part in number)
    end = start.then(
        A1=0,
        A4=0x800 + 4 * n,
        A5=words(x)[-1],
        A6=words(z)[-1],
        A7=x[-1][1] * y[-1][1],
        A8=0x900 + 4 * n,
        B4=0x880 + 4 * n,
        B5=words(y)[-1],
        B6=pack(z[-1][1], 0),
        B7=x[-1][0] * y[-1][1],
    ).words(0x900, words(z))
    return start, end, n


def crc16():
    message = b"123456789"
    n = len(message)
    start = State(A4=0xA01, A6=1, A7=1, B0=n).bytes(0xA01, message)
    crc = binascii.crc_hqx(message, 0xFFFF)
    assert crc == 0x29B1
    end = start.then(A4=0xA01 + n + 2, A5=crc >> 8, A6=crc, A7=0x1021 << 16, B0=0)
    end.bytes(0xA01 + n, [crc >> 8, crc & 255])
    return start, end, 1 + n * (1 + 8 + 1) + 1


def autocorrelation():
    x = [12000, 5, -32768, -7, -30001, 32767, -30000]
    n, lags = len(x), 4
    start = State(A4=0xB02, A8=n, B0=lags, B4=0xB80).halves(0xB02, x)
    r = [sum(x[i] * x[i + k] for i in range(n - k)) for k in range(lags)]
    last = n - lags
    end = start.then(
        A1=0,
        A5=0xB02 + 2 * (last + 1),
        A7=r[-1],
        A8=last,
        A9=x[last],
        A10=x[last] * x[-1],
        B0=0,
        B4=0xB80 + 4 * lags,
        B5=0xB02 + 2 * n,
        B6=0xB02 + 2 * lags,
        B9=x[-1],
    ).words(0xB80, r)
    return start, end, 1 + sum(1 + (n - k) + 1 for k in range(lags))


def maximum():
    frames = [
        [-32768, -2, 17, -20000, 5, 31000, 30999, -1],
        [-5, -6, -4, -30000, -3, -7, -9, -4],
        [100, 32767, -100, 32767, 32767, 5, 32767, -32768],
        [7, -1, 9, 8, -20000, 9, 9, 9],
        [-8, 3, -7, -20000, -9, 5, -32768, 4],
        [-8, -7, 6, -20000, -9, -5, -32768, -6],
        [-32768] * 8,
        [-32768, -32767, -32767, -32768, -32767, -32767, -32768, -32766],
    ]
    n = len(frames[0])
    count = len(frames)
    samples = sum(frames, [])
    start = State(A4=0xC02, A9=n, A10=0xD00, B1=count).halves(0xC02, samples)
    results = [(max(frame), frame.index(max(frame))) for frame in frames]
    last, odd = frames[-1], frames[-1][1::2]
    end = start.then(
        A4=0xC02 + 2 * len(samples),
        A5=last[-2],
        A6=results[-1][0],
        A7=results[-1][1],
        A8=n,
        A10=0xD00 + 4 * count,
        B1=0,
        B4=0xC02 + 2 * len(samples) + 2,
        B5=last[-1],
        B6=max(odd),
        B7=2 * odd.index(max(odd)) + 1,
        B8=n + 1,
    )
    for k, result in enumerate(results):
        end.halves(0xD00 + 4 * k, result)
    return start, end, count * (1 + n // 2 + 1) + 1


def bit_reversal():
    words = [0x00000001, 0x80000000, 0x12345678, 0x0000FFFF, 0xFFFFFFFE, 0xDEADBEEF]
    n = len(words)
    start = State(A1=n, A4=0xD80).words(0xD80, words)
    reversed_words = [int(f"{word:032b}"[::-1], 2) for word in words]
    end = start.then(
        A1=0,
        A4=0xD80 + 4 * n,
        A8=0x55555555,
        A9=0x33333333,
        B5=reversed_words[-1],
        B8=0x0F0F0F0F,
        B9=0x00FF00FF,
    ).words(0xD80, reversed_words)
    return start, end, 1 + n + 1


def moving_average():
    s, w = 3, 8
    x = [5, -32768, 32767, -1, 30000, 12345, -2, 7, -32768, -32768, -31000, -3, 32767, -8, 4]
    n = len(x) - w + 1
    start = State(A1=n, A4=0xE02, A9=s, B4=0xE80).halves(0xE02, x)
    y = [(sum(x[k : k + w]) + w // 2) >> s for k in range(n)]
    end = start.then(
        A1=0,
        A3=w,
        A4=0xE02 + 2 * len(x),
        A5=x[-1],
        A6=sum(x[n:]) + w // 2,
        A7=y[-1],
        A8=x[n - 1],
        B4=0xE80 + 2 * n,
    ).halves(0xE80, y)
    return start, end, 1 + (w - 1) + n


def saturated_sum():
    x = [32767, 9, -20000, 20000, 12767, -12768, -12768, 12768, -5, 32767, -20000, -32768]
    y = [1, -10, 20003, 20000, 20000, -20000, -20001, 20000, 4, -32768, -30001, -1]
    n = len(x)
    start = State(A1=n, A4=0x1000, A10=0x1100, B4=0x1080).halves(0x1000, x).halves(0x1080, y)
    z = [min(max(a + b, -32768), 32767) for a, b in zip(x, y)]
    end = start.then(
        A1=0,
        A4=0x1000 + 2 * n,
        A5=pack(x[-1], x[-2]),
        A6=pack(z[-1], z[-2]),
        A7=x[-1],
        A8=32767,
        A9=-32768,
        A10=0x1100 + 2 * n,
        B4=0x1080 + 2 * n,
        B5=pack(y[-1], y[-2]),
        B6=y[-2],
        B7=pack(z[-1], 0),
        B8=32767,
        B9=-32768,
    ).halves(0x1100, z)
    return start, end, 1 + n // 2 + 1


def transformed(points):
    """The product with the Hadamard matrix, whose element in row k and column i is -1 to the bits set in k and i."""
    places = range(len(points))
    return [sum(points[i] * (-1) ** bin(k & i).count("1") for i in places) for k in places]


def hadamard():
    lows = [
        [-3462, -13308, -8736, -1058, -2929, 29319, 7978, -26400],
        [4303, -18949, 21262, -13565, -30643, -13431, -2397, -19431],
    ]
    highs = [
        [32767, -32768, 12345, -1, 0, 7, -30000, 29999],
        [5, -6, 7, -8, 9, -10, 11, -12],
    ]

    def words(high, low):
        return [pack(*halves) for halves in zip(high, low)]

    start = State(A1=2, A4=0x1200)
    end = start.then(A1=0, A4=0x1240)
    for group, (high, low) in enumerate(zip(highs, lows)):
        start.words(0x1200 + 32 * group, words(high, low))
        end.words(0x1200 + 32 * group, words(transformed(high), transformed(low)))

    def set_registers(file, first, values):
        for k, value in enumerate(values):
            end.registers[f"{file}{first + k}"] = value

    def part(begin, stop):
        return words(transformed(high[begin:stop]), transformed(low[begin:stop]))

    set_registers("A", 5, part(0, 4))
    set_registers("B", 5, part(4, 8))
    set_registers("B", 9, part(4, 6) + part(6, 8))
    set_registers("A", 9, part(0, 8)[4:])
    return start, end, 2


def square_root():
    words = [0x40000000, 0, 1, 2, 15, 16, 99999999]
    words += [0x7FFFFFFF, 0x80000000, 0xFFFE0000, 0xFFFE0001, 0xFFFFFFFF, 100000003]
    n = len(words)
    start = State(A1=n, A4=0x1300, B1=3, B4=0x1380, B6=1).words(0x1300, words)
    roots = [math.isqrt(word) for word in words]
    end = start.then(
        A1=0,
        A4=0x1300 + 4 * n,
        B1=0,
        B4=0x1380 + 2 * n,
        B5=words[-1] - roots[-1] ** 2,
        B6=roots[-1],
    ).halves(0x1380, roots)
    return start, end, n * (1 + 16 + 1) + 1


def interpolation():
    # 30000 times the sine.
    rise = [0, 5853, 11481, 16667, 21213, 24944, 27716, 29424]
    half = rise + [30000] + rise[:0:-1]
    table = half + [-value for value in half] + [0]
    phases = [0, 1, 0x07FF, 0x0800, 0x3C00, 0x4321, 0x8001, 0x9FFF, 0xC000, 0xF7FF, 0xFFFF, 0xD5A7, 0x9EBC]
    n = len(phases)
    start = State(A1=n, A4=0x1402, A8=0x1482, B4=0x1502).halves(0x1402, phases).halves(0x1482, table)
    y = []
    for phase in phases:
        segment, part = divmod(phase, 2048)
        climb = (table[segment + 1] - table[segment]) * part >> 11
        y.append(table[segment] + climb)
    end = start.then(
        A1=0,
        A4=0x1402 + 2 * n,
        A5=phase,
        A6=segment + 1,
        A7=part * 65536 // 2048,
        A9=y[-1],
        A10=climb,
        B4=0x1502 + 2 * n,
    ).halves(0x1502, y)
    return start, end, n


def convolution():
    rows = [
        [100, 102, 104, 110, 121, 130, 255, 250, 9, 3, 0, 7, 200, 201, 199, 198],
        [101, 99, 105, 112, 124, 133, 251, 140, 0, 2, 5, 60, 205, 199, 198, 200],
        [100, 103, 104, 113, 120, 135, 254, 255, 8, 4, 1, 9, 204, 200, 202, 197],
    ]
    mask = [-8, -16, -7, -16, 111, -16, -8, -15, -8]
    s = 4
    width = len(rows[0])
    n = width - 2
    start = State(A4=0x1601, A6=width, A9=s, B0=n, B4=0x1643, B6=0x1681)
    start.bytes(0x1601, sum(rows, [])).bytes(0x1643, mask)
    products = []
    for column in range(n):
        window = [pixel for row in rows for pixel in row[column : column + 3]]
        products.append([pixel * weight for pixel, weight in zip(window, mask)])
    output = [min(max(sum(nine) >> s, 0), 255) for nine in products]
    end = start.then(
        A1=0,
        A4=0x1601 + n,
        A5=0x1601 + n - 1 + 3 * width,
        A7=output[-1],
        A10=255,
        A11=products[-1][6],
        A12=products[-1][7],
        A13=products[-1][8],
        B0=0,
        B5=0x1643 + 9,
        B6=0x1681 + n,
        B11=mask[6],
        B12=mask[7],
        B13=mask[8],
    ).bytes(0x1681, output)
    return start, end, 1 + n * (1 + 3 + 1) + 1


def gain():
    words = [1, 2, 0x8000, 0xFFFF, 0x10000, 0x7FFFFFFF, 0x80000000, 0xFFFFFFFF, 0x89ABCDEF]
    g = 0xC001
    n = len(words)
    start = State(A1=n, A4=0x1700, A6=g, B4=0x1780).words(0x1700, words)
    y = [word * g // 65536 for word in words]
    end = start.then(
        A1=0,
        A4=0x1700 + 4 * n,
        A5=words[-1],
        A6=pack(g, g),
        A7=words[-1] % 65536 * g // 65536,
        A8=y[-1],
        B4=0x1780 + 4 * n,
    ).words(0x1780, y)
    return start, end, 1 + n


def block_match():
    line = [0, 255, 128, 127, 200, 13, 250, 90, 91, 3, 255, 128, 126, 201, 13, 250, 91, 90, 4, 4]
    block = [254, 128, 127, 200, 14, 250, 90, 91]
    places = len(line) - 8 + 1
    start = State(A4=0x1801, A8=1, B1=places, B4=0x1843).bytes(0x1801, block).bytes(0x1843, line)
    differences = [[abs(a - b) for a, b in zip(block, line[k:])] for k in range(places)]
    sums = [sum(eight) for eight in differences]
    end = start.then(
        A1=0,
        A5=0x1801 + 8,
        A6=min(sums),
        A7=sums.index(min(sums)),
        A8=places,
        A9=sums[-1],
        A10=block[-1],
        A11=differences[-1][-1],
        B1=0,
        B4=0x1843 + places,
        B5=0x1843 + len(line),
        B10=line[-1],
    )
    return start, end, 1 + places * (1 + 8 + 1) + 1


def reorder():
    m = 4
    n = 2**m
    words = [0x9E3779B9 * (k + 1) for k in range(n)]

    def reversal(index):
        return int(f"{index:0{m}b}"[::-1], 2)

    def ones_at_the_end(index):
        return len(f"{index:b}") - len(f"{index:b}".rstrip("1"))

    start = State(A4=0x1900, A6=1, A8=n).words(0x1900, words)
    end = start.then(
        A1=n // 4,
        A6=n - 2,
        A7=n - 1,
        A9=n // 2,
        A10=0x1900 + 4 * (n - 2),
        A11=0x1900 + 4 * reversal(n - 2),
    ).words(0x1900, [words[reversal(k)] for k in range(n)])
    carries = sum(ones_at_the_end(index) + 1 for index in range(1, n - 1))
    return start, end, 1 + (n - 2) * 2 + carries + 1


def merge():
    first = [-32768, -5, -5, 0, 7, 7, 30001]
    second = [-32767, -5, 3, 7, 8, 29999]
    n = len(first) + len(second)
    start = State(A2=n, A4=0x1B02, A8=0x1C02, B4=0x1B82)
    start.halves(0x1B02, first + [32767]).halves(0x1B82, second + [32767])
    merged = sorted(first + second)
    end = start.then(
        A1=0,
        A2=0,
        A4=0x1B02 + 2 * len(first),
        A5=first[-1],
        A6=merged[-1],
        A8=0x1C02 + 2 * n,
        B4=0x1B82 + 2 * len(second),
        B5=32767,
    ).halves(0x1C02, merged)
    return start, end, n


def delay_line():
    h = [12000, -9001, 7003, -4000]
    older = [32767, -32768, 5]
    x = [1, -1, 32767, -32768, 12345, -30000, 29999, 0, 7]
    n = len(x)
    start = State(A1=n, A4=0x1D02, A6=0x1E02, B4=0x1D82).halves(0x1D02, x).halves(0x1E02, older + h)
    newest = x[::-1] + older
    windows = [newest[k : k + 4] for k in reversed(range(n))]
    products = [[tap * sample for tap, sample in zip(h, window)] for window in windows]
    y = [(sum(four) + 2**14) >> 15 for four in products]
    assert all(map(is_half, y))
    end = start.then(
        A1=0,
        A3=2**14,
        A4=0x1D02 + 2 * n,
        A5=x[-1],
        A7=x[-2],
        A8=x[-3],
        A9=x[-4],
        A10=products[-1][0],
        A11=products[-1][0] + products[-1][1] + 2**14,
        A12=products[-1][2],
        A13=y[-1],
        B4=0x1D82 + 2 * n,
    ).halves(0x1E02, newest[:3]).halves(0x1D82, y)
    return start, end, 1 + n


def edge():
    words = [0x11111111, -2, 0x33333333]
    n, there = 6, len(words)
    source = 65536 - 4 * there
    start = State(A1=n, A4=source, B4=0x1A00).words(source, words).words(0x1A00, [-1] * n)
    end = start.then(A1=0, A4=source + 4 * n, A5=0, B4=0x1A00 + 4 * n)
    end.words(0x1A00, words + [0] * (n - there))
    end.faults.append(line_of("edge", "LDW"))
    return start, end, n


def gcd():
    """The only text that ends by a return: the ending is the address in B3."""
    first, second = 1071, 462
    quotients = []
    while second != 0:
        quotients.append(first // second)
        first, second = second, first % second
    subtractions = sum(quotients) - 1
    start = State(A4=1071, A5=462, A1=5, A2=5, B3=0x2000)
    end = start.then(A1=1, A2=1 - len(quotients) % 2, A4=math.gcd(1071, 462), A5=math.gcd(1071, 462))
    return start, end, 2 * subtractions + 2, f"register {0x2000:08x}"


def noise():
    """The only text without an end: the limit of blocks ends its run."""
    taps, word = 0xB400, 0xACE1
    start = State(A4=word, A5=taps)
    for _ in range(LIMIT):
        bit = word % 2
        word = word // 2 ^ taps * bit
    return start, start.then(A1=bit, A4=word), LIMIT, "limit"


def full_division():
    pairs = [(100, 7), (7, 100), (0, 5), (1, 1), (12345, 12345), (0xFFFFFFFF, 1), (1, 0xFFFFFFFF), (0xFFFFFFFF, 0xFFFFFFFF)]
    pairs += [(0xFFFFFFFE, 0xFFFFFFFF), (0x80000000, 0x80000001), (0xFFFFFFFF, 0x80000000), (0x80000000, 3), (0xFFFFFFFF, 0xFFFF)]
    pairs += [(0xDEADBEEF, 0xBEEF), (1000000007, 997), (65535, 65536), (1000, 7), (2000, 7), (4000000000, 300)]
    n = len(pairs)
    start = State(A1=n, A4=0x1F00, B4=0x2000).words(0x1F00, sum(pairs, ()))
    results = [divmod(*pair) for pair in pairs]
    # the digits of each quotient behind its first one
    digits = [max(numerator.bit_length() - denominator.bit_length(), 0) for numerator, denominator in pairs]
    (quotient, remainder), last = results[-1], digits[-1]
    end = start.then(
        A1=0,
        A4=0x1F00 + 8 * n,
        A5=quotient % 2**last,
        A6=quotient,
        A7=last,
        A8=remainder,
        B4=0x2000 + 8 * n,
        B5=pairs[-1][1] << last >> 1,
        B6=32 - pairs[-1][1].bit_length(),
    ).words(0x2000, sum(results, ()))
    turns = [max(-(-count // 7), 1) for count in digits]
    return start, end, sum(1 + count + 1 for count in turns) + 1


def full_saturated_fir():
    h = [-32768, 12288, 32767, -30000, 4096]
    x = [0, 0, 0, 0, 1, -1, 100, -1000, -32768, -32768, 32767, -32768, 32767, 32767, -32768, -32768, 5, 0, -3000, 2999, 700, -8]
    x += [32767, -32768, -32768, 32767, 32767, 20000]
    taps, older = len(h), len(h) - 1
    outputs = len(x) - older
    start = State(A4=0x2100 + 2 * older, A6=0x2200, A8=taps, B0=outputs, B4=0x2180)
    start.halves(0x2100, x).halves(0x2180, h)

    def rounded(total):
        return saturated(saturated(total * 2**3) + 2**15) >> 16

    y, late, ends = [], [], set()
    for n in range(older, len(x)):
        products = [2 * h[k] * x[n - k] for k in range(taps)]
        total = 0
        for product in map(saturated, products):
            if saturated(total + product) != total + product:
                ends.add(saturated(total + product))
            total = saturated(total + product)
        y.append(rounded(total))
        late.append(rounded(sum(products)))
    # sums reach both ends, and at each there is an output that would be another if the whole sum alone were held in a word
    assert ends == {-(2**31), 2**31 - 1}
    assert any(a < b for a, b in zip(y, late)) and any(a > b for a, b in zip(y, late))
    end = start.then(
        A1=0,
        A3=2**15,
        A4=0x2100 + 2 * len(x),
        A5=0x2100 + 2 * (outputs - 2),
        A6=0x2200 + 2 * outputs,
        A7=y[-1],
        A9=x[outputs - 1],
        A10=2 * h[-1] * x[outputs - 1],
        B0=0,
        B5=0x2180 + 2 * taps,
        B9=h[-1],
    ).halves(0x2200, y)
    return start, end, 1 + outputs * (1 + taps + 1)


def full_wide_product():
    x = [0, 1, 0xFFFFFFFF, 0x80000000, 0x80000000, 0x7FFFFFFF, 0x0000FFFF, 0xFFFF0000, 0x80000000, 0x12345678, 3000000000, 0xDEADBEEF]
    y = [0, 0xFFFFFFFF, 0xFFFFFFFF, 0x80000000, 0x7FFFFFFF, 0x7FFFFFFF, 0x00010000, 0xFFFF0000, 0xFFFFFFFF, 0x9ABCDEF0, 5, 0xCAFEBABE]
    n = len(x)
    start = State(A1=n, A4=0x2300, A12=0x2400, B4=0x2380).words(0x2300, x).words(0x2380, y)
    unsigned_products = [a * b for a, b in zip(x, y)]
    signed_products = [signed(a) * signed(b) for a, b in zip(x, y)]
    z = []
    for wide, other in zip(unsigned_products, signed_products):
        assert (wide - other) % 2**32 == 0
        z += [wide % 2**32, wide >> 32, other >> 32]
    # of the last product: the sum of the two in the middle, which carries, as the low word does; then two sums of the signed one
    (a1, a0), (b1, b0) = divmod(x[-1], 65536), divmod(y[-1], 65536)
    middle = a0 * b1 + a1 * b0
    assert middle >= 2**32 and z[-3] < a0 * b0
    inner = a0 * (signed(y[-1]) >> 16) + (a0 * b0 >> 16)
    outer = (signed(x[-1]) >> 16) * b0 + inner % 65536
    end = start.then(
        A1=0,
        A4=0x2300 + 4 * n,
        A5=x[-1],
        A6=a0 * b0,
        A7=middle >> 32 << 16,
        A8=middle >> 16,
        A9=z[-2],
        A10=z[-3],
        A11=1,
        A12=0x2400 + 12 * n,
        B4=0x2380 + 4 * n,
        B5=y[-1],
        B6=inner >> 16,
        B7=outer >> 16,
        B8=z[-1],
        B9=inner % 65536,
    ).words(0x2400, z)
    return start, end, n


def exec_dot():
    x = [3, -1, 32767, -32768, -12345, 20000, -7, 30001, 5, -6, 255, 16384, -28672, 77, 1, -1, -20001, 9, 0, 12, 4, -32768]
    y = [-5, -32768, 32767, -32768, 23456, -20001, 9, -30002, 7, -256, 3, 32767, 11, -13, 17, 19, 2, -2, 3000, 1, -8, -32768]
    pairs = len(x) // 2
    start = State(A1=pairs, A4=0x100, A7=1, B3=0x2000, B4=0x200, B7=1).halves(0x100, x).halves(0x200, y)
    products = [a * b for a, b in zip(x, y)]
    end = start.then(
        A1=0,
        A2=pack(x[-1], x[-2]),
        A4=sum(products),
        A6=products[-2],
        A7=sum(products[0::2]),
        B2=pack(y[-1], y[-2]),
        B4=0x200 + 4 * pairs,
        B6=products[-1],
        B7=sum(products[1::2]),
    )
    return start, end, 1 + pairs + 7 + 1, f"register {0x2000:08x}"


def exec_scale():
    x = [5, -6, 32767, -32768, -12345, 20000, -7, 30001, -1]
    behind = [11, -12, 13, -14, 15, -16, 17, -18]
    factor = -23456
    n = len(x)
    start = State(A1=n + 2, A4=0x300, B0=1, B5=0x400, B6=factor).halves(0x300, x + behind)
    end = start.then(
        A1=0,
        A4=0x300 + 2 * (n + 8),
        A5=behind[7],
        B0=0,
        B5=0x400 + 2 * n,
        B7=behind[2] * factor,
        B8=behind[0] * factor >> 15,
    ).halves(0x400, [value * factor >> 15 for value in x])
    return start, end, 5 + n + 8


def exec_calls():
    a, b = -30001, 255
    start = State(A4=a, A5=b, B5=0x2000)
    return start, start.then(A4=a * a + b * b, A6=a * a, B3=0x80000100), 31, f"register {0x2000:08x}"


# the kernels that run with everything in flight: the text NAME.asm of examples/exec for each function exec_NAME
FLIGHTS = [exec_dot, exec_scale, exec_calls]

KERNELS = [
    first,
    dot,
    dot_pipelined,
    fir,
    biquad,
    complex,
    crc16,
    autocorrelation,
    maximum,
    bit_reversal,
    moving_average,
    saturated_sum,
    hadamard,
    square_root,
    interpolation,
    convolution,
    gain,
    block_match,
    reorder,
    merge,
    delay_line,
    edge,
    gcd,
    noise,
]

# the kernels that need the full set of instructions: the text NAME.s of examples/full for each function full_NAME
FULL = [full_division, full_saturated_fir, full_wide_product]


def files():
    """Each file, and what it has to hold."""
    for kernel in KERNELS + FULL:
        start, end, *ran = kernel()
        path = EXAMPLES / "full" / kernel.__name__.removeprefix("full_") if kernel in FULL else EXAMPLES / kernel.__name__
        for suffix, lines in ("settings", start.settings()), ("report", end.report(*ran)):
            yield path.with_suffix(f".{suffix}"), "".join(line + "\n" for line in lines).encode()
    for kernel in FLIGHTS:
        start, end, *ran = kernel()
        name = kernel.__name__.removeprefix("exec_")
        for suffix, lines in ("settings", start.settings()), ("report", end.flight(*ran)):
            yield EXAMPLES / "exec" / f"{name}.{suffix}", "".join(line + "\n" for line in lines).encode()


if sys.argv[1:] == ["--check"]:
    stale = [path.name for path, text in files() if not path.is_file() or path.read_bytes() != text]
    sys.exit(f"not as computed: {', '.join(stale)}" if stale else 0)
for path, text in files():
    path.write_bytes(text)
