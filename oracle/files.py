#!/usr/bin/env python3
"""Chain files and what the scope says of them, as the last list that `replays` reads: oracle/files.py > file.list

Everything here is written from the scope's section on the chain file, and shares nothing with the code that it tests. A case
starts with its kind: 0 reading (bytes, room; number, place and index, or 0 0 0; shape; what the room holds at the end), 1 writing
(shape, chain, the output's length; number, place and index; what the output holds at the end), 2 the listing (bytes; text). No
refusal of a file has an index but 0. A word has eight bytes, the lowest first; bytes stand behind a word that says how many. A second
list follows, of cases each of which has an answer that is wrong in one word or byte.
"""
import struct
import sys

BEFORE = struct.unpack("<Q", struct.pack("<d", 7.5))[0]
SPACE = 0xAA


class Refused(Exception):
    pass


def limits(core):
    left, n, right = core
    return 1 <= left <= 8 and 1 <= n <= 64 and 1 <= right <= 8


def bonds(cores):
    if cores[0][0] != 1:
        raise Refused(3, 0)
    for k in range(len(cores)):
        if cores[k][2] != (cores[k + 1][0] if k + 1 < len(cores) else 1):
            raise Refused(3, k)


def entries(cores):
    return sum(a * b * c for a, b, c in cores)


def finite(bits):
    return bits >> 52 & 0x7FF != 0x7FF


def numbers(cores, bits):
    at = 0
    for k, (a, b, c) in enumerate(cores):
        if not all(finite(x) for x in bits[at:at + a * b * c]):
            raise Refused(6, k)
        at += a * b * c


def read(data, room):
    """the cores and the bits of each number, or Refused"""
    if len(data) < 8:
        raise Refused(11, len(data))
    if data[:4] != b"TTC1":
        raise Refused(11, 0)
    d, zero = struct.unpack_from("<HH", data, 4)
    if zero:
        raise Refused(11, 6)
    if not 1 <= d <= 16:
        raise Refused(1, 0)
    if len(data) < 8 + 12 * d:
        raise Refused(11, len(data))
    cores, offset = [], 8 + 12 * d
    for k in range(d):
        left, n, right, zero, body = struct.unpack_from("<HHHHI", data, 8 + 12 * k)
        if not limits((left, n, right)):
            raise Refused(2, k)
        if zero:
            raise Refused(11, 8 + 12 * k + 6)
        if body != offset:
            raise Refused(11, 8 + 12 * k + 8)
        offset += 8 * left * n * right
        cores.append((left, n, right))
    bonds(cores)
    if len(data) != offset:
        raise Refused(11, len(data))
    if room < entries(cores):
        raise Refused(5, 1)
    bits = list(struct.unpack_from("<%dQ" % entries(cores), data, 8 + 12 * d))
    numbers(cores, bits)
    return cores, bits


def write(d, cores, bits, room):
    if not 1 <= d <= 16:
        raise Refused(1, 0)
    for k, core in enumerate(cores):
        if not limits(core):
            raise Refused(2, k)
    bonds(cores)
    if len(bits) != entries(cores):
        raise Refused(5, 0)
    if room != 8 + 12 * d + 8 * len(bits):
        raise Refused(5, 1)
    numbers(cores, bits)
    return make(cores, bits)


def make(cores, bits):
    data, offset = b"TTC1" + struct.pack("<HH", len(cores), 0), 8 + 12 * len(cores)
    for left, n, right in cores:
        data += struct.pack("<HHHHI", left, n, right, 0, offset)
        offset += 8 * left * n * right
    return data + struct.pack("<%dQ" % len(bits), *bits)


def text(data):
    if len(data) > 8392:
        return "too large\n"
    try:
        cores, bits = read(data, 1049)
    except Refused as r:
        return "refused %d at %d\n" % r.args
    out, offset = "axes %d entries %d\n" % (len(cores), len(bits)), 8 + 12 * len(cores)
    for k, (left, n, right) in enumerate(cores):
        out += "%d %d %d %d %d\n" % (k, left, n, right, offset)
        offset += 8 * left * n * right
    return out


cases, spoilt = [], []


def words(*numbers):
    return struct.pack("<%dQ" % len(numbers), *numbers)


def counted(data):
    return words(len(data)) + data


class Answer:
    """what a case answers, as bytes, and where it can be made wrong"""

    def __init__(self):
        self.data, self.values, self.lists = b"", [], []

    def value(self, *numbers):
        """words that are no length"""
        for number in numbers:
            self.values.append(len(self.data))
            self.data += words(number)

    def refusal(self, number=0, place=0):
        """number, place and index"""
        self.value(number, place, 0)

    def counts(self, numbers):
        """the counts at the front of an array, 0 behind them"""
        at = len(self.data)
        self.data += words(len(numbers))
        self.value(*numbers)
        if len(numbers) < 16:
            self.lists.append((at, len(self.data)))

    def held(self, front, length, behind):
        """the numbers at the front of a slice of that length, and what stands behind each"""
        self.data += words(len(front))
        if len(front) < length:
            self.value(behind)
        else:
            self.data += words(behind)
        self.value(*front)

    def text(self, data):
        self.data += words(len(data))
        self.values += range(len(self.data), len(self.data) + len(data))
        self.data += data

    def made_wrong(self):
        """every value turned in its lowest bit, and every list with one number more"""
        for at in self.values:
            yield put(self.data, at, bytes([self.data[at] ^ 1]))
        for at, end in self.lists:
            yield put(self.data[:end], at, words((end - at) // 8)) + words(1) + self.data[end:]


def case(given, answer):
    cases.append(given + answer.data)
    return given, answer


def make_wrong(given, answer):
    spoilt.extend(given + data for data in answer.made_wrong())


def shaped(d, cores):
    """how many cores, then the left ranks of all, their sizes, their right ranks"""
    return words(d, *(core[i] for i in range(3) for core in cores))


def reading(data, room):
    answer = Answer()
    try:
        cores, bits = read(data, room)
        answer.refusal()
        answer.value(len(cores))
        sides, front, behind = zip(*cores), bits, 0
    except Refused as r:
        answer.refusal(*r.args)
        answer.value(0)
        sides, front, behind = [()] * 3, [], BEFORE
    for side in sides:
        answer.counts(side)
    answer.held(front, room, behind)
    return case(words(0) + counted(data) + words(room), answer)


def writing(d, cores, bits, room):
    answer = Answer()
    try:
        made = write(d, cores, bits, room)
        answer.refusal()
    except Refused as r:
        made = bytes([SPACE]) * room
        answer.refusal(*r.args)
    answer.text(made)
    return case(words(1) + shaped(d, cores[:min(d, 16)]) + words(len(bits), *bits) + words(room), answer)


def listing(data):
    answer = Answer()
    answer.text(text(data).encode())
    return case(words(2) + counted(data), answer)


def both(data, room=None):
    reading(data, 8 if room is None else room)
    listing(data)


def bits(*floats):
    return [struct.unpack("<Q", struct.pack("<d", x))[0] for x in floats]


def put(data, at, new):
    return data[:at] + new + data[at + len(new):]


# the scope's 52 bytes; two cores; 16 cores of one number; numbers whose bits must be kept
one = make([(1, 4, 1)], bits(4, 8, 16, 0))
two = make([(1, 2, 2), (2, 1, 1)], bits(3, 0, 0, 4, 1, 1))
long = make([(1, 1, 1)] * 16, bits(*range(16)))
odd = [0x8000000000000000, 1, 0x8000000000000001, 0x000FFFFFFFFFFFFF, 0x7FEFFFFFFFFFFFFF, 0xFFEFFFFFFFFFFFFF, 0, 0x0123456789ABCDEF]
kept = make([(1, 2, 2), (2, 2, 1)], odd)
most = make([(1, 64, 1)] * 16, bits(*range(1024)))
assert (len(one), len(two), len(most)) == (52, 80, 8392)

for data in (one, two, long, kept):
    n = (len(data) - 8 - 12 * data[4]) // 8
    for room in (0, n - 1, n, n + 1, n + 3):
        reading(data, room)
    # cut at every length, and longer by one, by a number
    for end in range(len(data)):
        both(data[:end], n)
    both(data + b"\0", n)
    both(data + b"\0" * 8, n)
# each field of header and table, damaged by one bit
for data in (one, two):
    for bit in range(8 * (8 + 12 * data[4])):
        at = bit // 8
        both(put(data, at, bytes([data[at] ^ 1 << bit % 8])))
# and of each number: accepted with that bit, unless it isn't finite
for bit in range(8 * 20, 8 * 52):
    at = bit // 8
    reading(put(one, at, bytes([one[at] ^ 1 << bit % 8])), 4)
# numbers that aren't finite, at each place
for pattern in (0x7FF0000000000000, 0xFFF0000000000000, 0x7FF0000000000001, 0x7FF8000000000000, 0xFFFFFFFFFFFFFFFF):
    for i in range(6):
        both(put(two, 32 + 8 * i, words(pattern)))
# each size and d over its range
for d in list(range(18)) + [255, 256, 257, 65535]:
    both(put(one, 4, struct.pack("<H", d)))
    both(put(long, 4, struct.pack("<H", d)), 16)
for field in (8, 10, 12):
    for size in list(range(11)) + [63, 64, 65, 255, 256, 257, 65535]:
        both(put(one, field, struct.pack("<H", size)))
# the largest file that is listed, one byte less and one more, and more axes than room
for data in (most, most[:-1], most + b"\0", b"\0" * 8392, b"\0" * 8393, b"", b"TTC1", b"TTC2" + most[4:]):
    listing(data)
reading(most, 1024)
reading(most, 1023)
# writing, and its refusals with every later fault beside them
for cores, chain in (([(1, 4, 1)], bits(4, 8, 16, 0)), ([(1, 2, 2), (2, 2, 1)], odd), ([(1, 1, 1)] * 16, bits(*range(16))), ([(1, 64, 1)] * 16, bits(*range(1024))), ([(1, 64, 8), (8, 1, 1)], bits(*range(520)))):
    d, n, room = len(cores), len(chain), 8 + 12 * len(cores) + 8 * len(chain)
    writing(d, cores, chain, room)
    for wrong in (room - 1, room + 1, 0, room - 8):
        writing(d, cores, chain, wrong)
    writing(d, cores, chain[:-1], room)
    writing(d, cores, chain + bits(1), room)
    for i in (0, n // 2, n - 1):
        for pattern in (0x7FF0000000000000, 0xFFF0000000000000, 0x7FF8000000000000):
            writing(d, cores, chain[:i] + [pattern] + chain[i + 1:], room)
writing(0, [], [], 8)
writing(17, [(1, 1, 1)] * 16, bits(*range(16)), 328)
for bad in ((0, 4, 1), (9, 4, 1), (1, 0, 1), (1, 65, 1), (1, 4, 0), (1, 4, 9), (2, 4, 1), (1, 4, 2)):
    writing(1, [bad], bits(1), 51)
writing(2, [(1, 2, 2), (3, 1, 1)], bits(1), 51)
# an end rank and a bond at once
for cores in ([(2, 1, 1), (1, 1, 2), (3, 1, 1)], [(1, 1, 2), (3, 1, 1), (1, 1, 2)], [(1, 1, 1), (1, 1, 2), (3, 1, 2)], [(2, 1, 1), (1, 1, 1), (1, 1, 2)]):
    chain = bits(*range(entries(cores)))
    writing(3, cores, chain, 44 + 8 * len(chain))
    both(make(cores, chain), len(chain))
# wrong answers: of a file that leaves room, of one that is cut, of one written and one not, and of both listings
make_wrong(*reading(two, 8))
make_wrong(*reading(two[:-1], 8))
make_wrong(*writing(1, [(1, 4, 1)], bits(4, 8, 16, 0), 52))
make_wrong(*writing(1, [(1, 4, 2)], bits(4, 8, 16, 0), 52))
make_wrong(*listing(one))
make_wrong(*listing(one[:19]))
for some in (cases, spoilt):
    sys.stdout.buffer.write(words(len(some)) + b"".join(some))
    print(len(some), file=sys.stderr)
