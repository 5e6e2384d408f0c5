"""Holds this implementation against the papers: python3 selftest.py

Prints one line for each group of checks; exit status 1 if any check fails.
"""

import sys
from collections import Counter

import aes
import des
import field
import over_elements
import present
from aes_steps import (
    aes_random,
    aes_sbox_random,
    aes_sbox_steps,
    aes_steps,
    cut_bytes,
    masked_aes,
    masked_aes_sbox,
    masked_expansion,
)
from casefile import decode_file, encode_file
from cases import (
    INPUTS,
    LAYOUTS,
    PAIRS,
    PRESENT_TABLE,
    aes_parts,
    bit_tables,
    block_parts,
    house_record,
    in_version,
    low_bits_alone,
    p_length,
    random_basis,
    random_record,
    sharing,
    twin_record,
    zero_record,
)
from decomposition import (
    HEAD_LENGTH,
    HOUSE_BASIS,
    PARTS,
    RECORD_LENGTH,
    WORK_LENGTH,
    basis_length,
    columns,
    form_at,
    head_length,
    pack_record,
    packed,
    solve,
    table_of,
    unpack_record,
)
from field import EXPONENTS, PRODUCT, evaluate, power, product
from operations import (
    aes_block,
    aes_block_watch,
    block,
    block_watch,
    check,
    decrypt,
    encrypt,
    fit,
    house_fit,
    join,
    open_block,
    open_watch,
    read,
    sbox,
    sbox_watch,
    split,
)
from prng import Prng
from steps import (
    Trace,
    block_random,
    block_steps,
    cut_shares,
    masked_block,
    masked_open,
    masked_product,
    masked_sbox,
    open_random,
    open_steps,
    sbox_random,
    sbox_steps,
)

SHARE_COUNTS = range(1, 10)
failures = []


def same(what, got, expected):
    if got != expected:
        failures.append(what)
        print(f"FAILED {what}: {got!r}, expected {expected!r}")


def add_up(shares):
    total = 0
    for share in shares:
        total ^= share
    return total


# ----------------------------------------------------------------- the fields


def test_fields():
    for n in (4, 6, 8):
        size, times = 2**n, PRODUCT[n]
        same("1 is neutral", times[1], list(range(size)))
        for a in range(size):
            same("commutative", times[a], [times[b][a] for b in range(size)])
            # y times a: shifted, and reduced by the modulus if it overflows.
            doubled = a << 1 ^ (field.MODULUS[n] if a >> n - 1 else 0)
            same("product by y", times[2][a], doubled)
            for b in range(size):
                # b is a sum of powers of y; the product has to follow.
                total, multiple = 0, a
                for bit in range(n):
                    total ^= multiple if b >> bit & 1 else 0
                    multiple = times[2][multiple]
                same("product", times[a][b], total)
            same("power 0", power(n, a, 0), 1)
            same("power 2^n - 1", power(n, a, size - 1), 1 if a else 0)
    for n in (4, 6):
        orbits = EXPONENTS[n][1:]
        for k in range(0, len(orbits), n):
            for place in range(n):
                following = orbits[k + (place + 1) % n]
                same("squares up the list", orbits[k + place] * 2 % (2**n - 1), following)


# -------------------------------------------------------- checks on paper


def test_checks_on_paper():
    same("(a)", product(4, 2, 8), 3)
    same("(b)", product(4, 9, 9), 13)
    same("(c)", product(4, 15, 15), 10)
    same("(d)", product(6, 32, 32), 48)
    result = masked_product(Trace(4, b"\x12\x30"), 4, [1, 2, 0], [4, 0, 1])
    same("(e)", result, [7, 10, 2])
    same("(e) joined", (add_up(result), product(4, 3, 5)), (15, 15))
    same("(f)", present.bit_target(4), 1)
    same("(g)", present.bit_target(62), 47)
    same("(h)", present.update_key(0, 1), 0xC0000000000000008000)
    same("(i)", evaluate(4, HOUSE_BASIS, 2), 9)
    for pair, expected in (((4, 4), 213), ((6, 6), 930)):
        trace = Trace(pair[0], bytes(sbox_random(pair, 3)))
        masked_sbox(trace, random_record(Prng(1), pair), [1, 2, 3])
        same("(j)", (len(trace.values), sbox_steps(pair, 3)), (expected, expected))
    answer = house_fit(bytes(16), b"\x01" * 304, b"\x01" * 34)
    expected = b"DCP\x00\x02\x04\x04" + HOUSE_BASIS + bytes(18)
    same("(k)", answer, (0, (), (bytes(304), expected)))
    same("(l)", split(b"\x07", 3, b"\x01\x02", b"\xee" * 3), (0, (), (b"\x04\x01\x02",)))


def test_edges():
    house = house_record(PRESENT_TABLE)
    for s, number in ((0, 7), (1, 0), (9, 0), (10, 7)):
        shares, random, out = bytes(s), bytes(s * (s - 1) // 2), b"\xee" * s
        same("S-box share count", sbox(house, s, shares, random, out).number, number)
        answer = sbox_watch(house, s, shares, random, [0], b"\xee")
        same("watch S-box share count", answer.number, number)
        inputs = house, s, bytes(10 * s), bytes(8 * s), bytes(block_random(s))
        same("block share count", block(*inputs, bytes(8 * s)).number, number)
        same("watch block share count", block_watch(*inputs, [], b"").number, number)
        masks = bytes(max(s - 1, 0))
        same("split share count", split(b"\x01", s, masks, out).number, number)
        same("join share count", join(shares, s, b"\xee").number, number)

    coefficients = bytearray(house)
    coefficients[20] = 15
    same("coefficient 15", read(bytes(coefficients)), (0, (4,), ()))
    coefficients[20] = 16
    same("coefficient 16", read(bytes(coefficients)), (3, (20,), ()))

    out = b"\xee" * 24
    for n, number in ((1580, 2), (1581, 0), (1582, 2), (3162, 2)):
        answer = block(house, 3, bytes(30), bytes(24), bytes(n), out)
        same("random bytes of three shares", answer.number, number)
        same("unchanged if refused", answer.outputs[0] == out, number != 0)
    inputs = house, 3, bytes(30), bytes(24), bytes(1581)
    same("last step", block_watch(*inputs, [117196], b"\xee").number, 0)
    same("no step", block_watch(*inputs, [117196, 117197], b"\xee\xee").values, (1,))
    same("no step", block_watch(*inputs, [117197], b"\xee"), (8, (0,), (b"\xee",)))

    work, record = b"\x01" * 304, b"\xee" * 34
    answer = fit(4, 4, b"\x01" + bytes(15), bytes(9), work, record)
    same("zero basis, 1, 0, 0 ..", answer, (4, (0,), (bytes(304), record)))
    answer = fit(4, 4, bytes(range(16)), bytes(9), work, record)
    same("zero basis, identity", answer.number, 0)
    same("zero basis, identity", answer.outputs[1][16:], bytes(10) + b"\x01" + bytes(7))
    answer = fit(4, 4, b"\x10" + bytes(15), bytes(9), work, record)
    same("work untouched after 3", answer, (3, (0,), (work, record)))
    answer = check(house, PRESENT_TABLE[:15] + b"\x03")
    same("Check's place", answer, (6, (15,), ()))


# -------------------------------------------------------------------- records


def test_layouts():
    """Lengths from the parts, and what Read says of the shortest records."""
    for pair, version in LAYOUTS:
        length = HEAD_LENGTH[version] + basis_length(pair) + p_length(pair)
        same("record length", RECORD_LENGTH[version][pair], length)
        record = zero_record(pair, version)
        same("record", (len(record), read(record)), (length, (0, (pair[0],), ())))
        same("first coefficient", head_length(record), {1: 6, 2: 7}[version])
        place = head_length(record)
        bad = record[:place] + b"\xff" + record[place + 1 :]
        same("its place", read(bad), (3, (place,), ()))
    same("work, equal widths", [16 * (18 + 1), 64 * (76 + 1)], [304, 4928])
    same("work, (6, 4)", (64 * 4, 3 * 19 * 6, 256 * (342 + 2) // 8), (256, 342, 11008))
    same("work", WORK_LENGTH, {(4, 4): 304, (6, 6): 4928, (6, 4): 11008})


def test_heads():
    """The tests of Read in their order, on heads written by hand."""
    for head, number in (
        ((0, 2, 4), 2),  # six bytes
        ((0, 2, 5), 1),  # 1 before the 2 of six bytes
        ((0, 1, 4), 2),
        ((0, 0, 5), 5),  # 5 before 1
        ((0, 3, 4), 5),
        ((2, 0, 4, 4), 5),
        ((1, 2, 4, 4), 5),
        ((0, 2, 4, 4), 2),  # seven bytes
        ((0, 2, 4, 6), 9),  # 9 before 2
        ((0, 2, 4, 0), 9),
        ((0, 2, 6, 4), 2),
        ((0, 2, 6, 6), 2),
        ((0, 2, 6, 5), 9),
        ((0, 2, 6, 255), 9),
        ((0, 2, 5, 5), 1),  # 1 before 9
        ((0, 1, 4, 9), 2),  # in version 1 that is a coefficient
    ):
        same(f"head {head}", read(b"DCP" + bytes(head)), (number, (0,), ()))
    same("five bytes", read(b"XCP\x00\x02").number, 2)


def test_versions():
    """A record of equal widths means the same in both versions."""
    prng = Prng(14)
    for pair in ((4, 4), (6, 6)):
        record = random_record(prng, pair)
        old = in_version(record, 1)
        same("head of version 1", old[:6], b"DCP\x00\x01" + bytes(pair[:1]))
        same("head of version 2", record[:7], b"DCP\x00\x02" + bytes(pair))
        same("coefficients", old[6:], record[7:])
        same("unpacked", unpack_record(old), unpack_record(record))
        same("table", table_of(old), table_of(record))
        shares, random = prng.elements(2 ** pair[0], 3), bytes(sbox_random(pair, 3))
        answers = [sbox(r, 3, shares, random, b"\xee" * 3) for r in (old, record)]
        same("S-box", answers[0], answers[1])
        same("S-box done", answers[0].number, 0)
    house = house_record(PRESENT_TABLE)
    inputs = 2, prng.bytes(20), prng.bytes(16), prng.bytes(block_random(2)), b"\xee" * 16
    answers = [block(in_version(house, version), *inputs) for version in (1, 2)]
    same("block", answers[0], answers[1])
    for pair in ((6, 6), (6, 4)):
        same("block, width 6", block(random_record(prng, pair), *inputs).number, 1)


def test_low_bits():
    """Check at (6, 4) looks at four bits, and takes no larger entry."""
    record = random_record(Prng(15), (6, 4))
    table = table_of(record)
    form = bytes(form_at(record, x) for x in range(64))
    same("low bits", table, bytes(v & 15 for v in form))
    same("upper bits are there", max(form) > 15, True)
    same("Check", check(record, table), (0, (), ()))
    same("entry 16", check(record, table[:9] + b"\x10" + table[10:]), (3, (9,), ()))
    other = bytes([table[0], table[1] ^ 8]) + table[2:]
    same("another bit", check(record, other), (6, (1,), ()))


# ------------------------------------------------------------------------ fit


class BitSpan:
    """A span over single bits."""

    def __init__(self):
        self.by_top = {}

    def rest(self, vector):
        while vector and vector.bit_length() in self.by_top:
            vector ^= self.by_top[vector.bit_length()]
        return vector

    def holds(self, vector):
        return self.rest(vector) == 0

    def enter(self, vector):
        vector = self.rest(vector)
        if vector:
            self.by_top[vector.bit_length()] = vector

    def rank(self):
        return len(self.by_top)


def bits_of(width, p):
    """The unknowns in order: bit 0 of the first coefficient first."""
    return [coefficient >> bit & 1 for coefficient in p for bit in range(width)]


def hold_to_definition(pair, table, basis):
    """The answer meets the definition: its form is the table, free bits are 0, and there is
    none if no p meets the table. At equal widths it is the answer over field elements."""
    span, free = BitSpan(), []
    for column in columns(pair, basis):
        free.append(span.holds(column))
        span.enter(column)
    p = solve(pair, table, basis)
    same("fits or not", p is not None, span.holds(packed(pair[1], table)))
    if p is not None:
        same("form is the table", table_of(pack_record(pair, basis, p)), bytes(table))
        pairs = zip(bits_of(pair[0], p), free, strict=True)
        same("free bits", [bit for bit, is_free in pairs if is_free and bit], [])
    if pair[0] == pair[1]:
        same("over elements", over_elements.solve(pair[0], table, basis), p)
    return span.rank()


def test_fit():
    prng = Prng(2)
    rank = hold_to_definition((4, 4), PRESENT_TABLE, HOUSE_BASIS)
    same("rank, house basis", rank, 4 * 16)
    same("rank, zero basis", hold_to_definition((4, 4), bytes(16), bytes(9)), 4 * 9)
    seen = Counter()
    for number, (*pair, table, basis, work, record) in enumerate(INPUTS["fit"]()):
        pair = tuple(pair)
        answer = fit(*pair, table, basis, work, record)
        if answer.number in (0, 4):
            seen[pair, answer.number] += 1
            if pair == (4, 4) or number % 4 == 0:
                hold_to_definition(pair, table, basis)
    same("solved and unsolved cases", min(seen.values()) > 10 and len(seen), 6)
    for table in bit_tables() + [prng.elements(16, 16) for _ in range(50)]:
        same("house fit", check(house_record(table), table).number, 0)
    twin = twin_record(house_record(PRESENT_TABLE), 7, 11)
    same("twin record", check(twin, PRESENT_TABLE).number, 0)


def test_fit_over_bits():
    """Over zero bases at (6, 4): tables of single bits of p3, and which bits are free."""
    pair, none = (6, 4), bytes(38)
    same("unknown bits", len(list(columns(pair, none))), 342)
    record = b"\xee" * 102
    for place in (0, 7, 18):
        for bit in range(6):
            p = bytes(38 + place) + bytes([1 << bit]) + bytes(18 - place)
            table = table_of(pack_record(pair, none, p))
            answer = fit(6, 4, table, none, b"\x01" * 11008, record)
            same("fits", (answer.number, answer.outputs[0]), (0, bytes(11008)))
            same("head", answer.outputs[1][:7], b"DCP\x00\x02\x06\x04")
            same("meets the table", check(answer.outputs[1], table).number, 0)
    # Bits 4 and 5 of the constant do not show in the low four bits: they are free.
    same("constant", solve(pair, b"\x0f" * 64, none), bytes(38) + b"\x0f" + bytes(18))
    # 1, 0, 0 .. has no p over zero bases; the low bits of the identity have one.
    answer = fit(6, 4, b"\x01" + bytes(63), none, b"\x01" * 11008, record)
    same("zero basis", answer, (4, (0,), (bytes(11008), record)))
    identity = bytes(x % 16 for x in range(64))
    same("zero basis, identity", fit(6, 4, identity, none, b"\x01" * 11008, record).number, 0)


def test_low_bits_alone():
    """Tables that fit in four bits over q1, q2. Filled with zeros they do not fit in six
    over the same two, but do with a third q; filled with other bits not even then."""
    seen = []
    for *pair, table, basis, _, _ in low_bits_alone(Prng(16)):
        seen.append(solve(tuple(pair), table, basis) is not None)
    same("in four bits and in six", seen, 4 * [True, False, True, False])


# --------------------------------------------------- DES, and what lists reach


def differing_bits(a, b):
    return bin(a ^ b).count("1")


def test_des_tables():
    """Rows, and what the designers published of the tables (Coppersmith 1994)."""
    same("tables", (len(des.TABLES), {len(table) for table in des.TABLES}), (8, {64}))
    for rows, table in zip(des.ROWS, des.TABLES):
        for row in rows:
            same("a row is a permutation", sorted(row), list(range(16)))
        # Bits 5 and 0 name the row, bits 4 to 1 the column.
        same("row 1, column 2", table[0b000101], rows[1][2])
        same("row 2, column 15", table[0b111110], rows[2][15])
        for x in range(64):
            for change in (1, 2, 4, 8, 16, 32, 0b001100):
                same("two bits change", differing_bits(table[x], table[x ^ change]) >= 2, True)
            for change in (0b110000, 0b110100, 0b111000, 0b111100):
                same("the value changes", table[x] != table[x ^ change], True)
    same("S1 at 011011", des.TABLES[0][0b011011], 0b0101)  # the standard's own example


def sums_of_two(exponents):
    """The exponents of products of two listed powers; 63 and 0 differ at element 0."""
    sums = {a + b for a in exponents for b in exponents}
    return {total and (total - 1) % 63 + 1 for total in sums}


def reach(exponents, bits):
    """How many of the 64 * bits output bits products of two listed powers span."""
    span = BitSpan()
    for exponent in sums_of_two(exponents):
        values = [power(6, x, exponent) for x in range(64)]
        for bit in range(6):
            span.enter(packed(bits, [PRODUCT[6][v][1 << bit] % 2**bits for v in values]))
    return span.rank()


def test_reach():
    """Classes of 1, 3, 11: 61 of 64 dimensions and 244 of 256 bits. With 7 for 11 all."""
    listed = EXPONENTS[6]
    with_7 = listed[:13] + (7, 14, 28, 56, 49, 35)
    same("not reached", set(range(64)) - sums_of_two(listed), {21, 42, 63})
    same("reach", (reach(listed, 6), reach(listed, 4)), (6 * 61, 244))
    same("reach with 7", (reach(with_7, 6), reach(with_7, 4)), (6 * 64, 256))


def test_des_not_reached():
    """Over 0 and the x with x^21 = y^21 each form adds up to 0, and no table of DES does."""
    prng = Prng(17)
    chosen = [x for x in range(64) if x == 0 or power(6, x, 21) == power(6, 2, 21)]
    same("chosen", len(chosen), 22)
    for a in EXPONENTS[6]:
        for b in EXPONENTS[6]:
            terms = [product(6, power(6, x, a), power(6, x, b)) for x in chosen]
            same("product of listed powers", add_up(terms), 0)
    for pair in ((6, 6), (6, 4)):
        record = random_record(prng, pair)
        same("form", add_up(form_at(record, x) for x in chosen), 0)
    sums = [add_up(table[x] for x in chosen) for table in des.TABLES]
    same("tables of DES", sums, [12, 5, 1, 6, 2, 4, 10, 13])
    for table in des.TABLES:
        for pair in ((6, 6), (6, 4)):
            same("no p", solve(pair, table, random_basis(prng, pair)), None)


# ---------------------------------------------------------- steps and totals


def test_sbox():
    """All inputs, all share counts, all pairs: value, the upper bits too, and counts."""
    prng = Prng(3)
    for pair in PAIRS:
        n = pair[0]
        record = random_record(prng, pair)
        form = [form_at(record, x) for x in range(2**n)]
        for s in SHARE_COUNTS:
            counts = PARTS[pair] + n // 2 - 2, sbox_random(pair, s), sbox_steps(pair, s)
            for x in range(2**n):
                masks = prng.elements(2**n, s - 1)
                shares = bytes([x ^ add_up(masks)]) + masks
                random = prng.elements(256 if n == 4 else 64, sbox_random(pair, s))
                answer = sbox(record, s, shares, random, b"\xee" * s)
                same("S-box joined", add_up(answer.outputs[0]), form[x])
                same("S-box counts", answer.values, counts)


def test_sbox_figures():
    """At (6, 4): four products, 2 s(s-1) random elements, 201 s + 14 s(s-1) steps."""
    pair = 6, 4
    for s in SHARE_COUNTS:
        trace = Trace(6, bytes(2 * s * (s - 1)))
        masked_sbox(trace, random_record(Prng(18), pair), [1] * s)
        figures = 4, 2 * s * (s - 1), 201 * s + 14 * s * (s - 1)
        same("figures at (6, 4)", trace.counts(), figures)
        same("figures at (6, 4)", (sbox_random(pair, s), sbox_steps(pair, s)), figures[1:])


def test_step_rules():
    """Some steps named by hand, with the shares they touch."""
    prng = Prng(4)
    record = random_record(prng, (4, 4))
    x, drawn = [3, 14, 8], prng.bytes(3)
    random = [drawn[0] >> 4, drawn[0] & 15]
    trace = Trace(4, drawn)
    out = masked_sbox(trace, record, x)
    steps = list(zip(trace.values, trace.touched))
    square = [product(4, v, v) for v in x]
    fourth = [product(4, v, v) for v in square]
    same("x^2", steps[:3], [(square[i], (i,)) for i in range(3)])
    same("x^4", steps[3:6], [(fourth[i], (i,)) for i in range(3)])
    first = product(4, x[0], square[1])
    second = product(4, x[1], square[0])
    r = random[0]
    start = [product(4, a, b) for a, b in zip(x, square)]
    same("product starts", steps[9:12], [(start[i], (i,)) for i in range(3)])
    same("pair (0, 1)", steps[12:17], [
        (r, (0, 1)),
        (first, (0, 1)),
        (r ^ first, (0, 1)),
        (second, (0, 1)),
        (r ^ first ^ second, (0, 1)),
    ])
    same("pair (0, 1)", steps[17:19], [
        (start[0] ^ r, (0,)),
        (start[1] ^ r ^ first ^ second, (1,)),
    ])
    same("pair (0, 2) next", steps[19], (random[1], (0, 2)))
    same("last sums", steps[-3:], [(out[i], (i,)) for i in range(3)])
    # Squares 9, x^3 24, its squares 9, so q1 begins at step 42 with q1's x.
    q1 = unpack_record(record)[1][0]
    same("q1 begins", steps[42][0], product(4, q1[1], x[0]))
    same("constant on share 0", steps[43][0], q1[0] ^ steps[42][0])
    same("no constant on share 1", steps[42 + 17][0], steps[42 + 16][0])


def test_block_totals():
    house = house_record(PRESENT_TABLE)
    rows = ["shares products random steps"]
    for s in SHARE_COUNTS:
        trace = Trace(4, bytes(block_random(s)))
        masked_block(trace, house, s, bytes(10 * s), bytes(8 * s))
        same("block counts", trace.counts(), (1054, 527 * s * (s - 1) // 2, block_steps(s)))
        same("parts end", list(block_parts(s))[-1] + 16 * s, block_steps(s))
        same("shares touched", max(map(len, trace.touched)), min(s, 2))
        if s in (1, 3, 5):
            rows.append(" ".join(str(n) for n in (s, *trace.counts())))
    same("cost table", rows, [
        "shares products random steps",
        "1 1054 0 31729",
        "3 1054 1581 117197",
        "5 1054 5270 232177",
    ])
    same("steps of an S-box", sbox_steps((4, 4), 9), 7 * 81 + 50 * 9)


def joined_block(prng, record, s, key, plain):
    random = prng.bytes(block_random(s))
    answer = block(
        record, s, sharing(prng, key, s), sharing(prng, plain, s), random, b"\xee" * 8 * s
    )
    return join(answer.outputs[0], s, b"\xee" * 8).outputs[0]


def test_block():
    prng = Prng(5)
    house = house_record(PRESENT_TABLE)
    for key, plain, ciphertext in present.vectors():
        same("vector, unmasked", present.encrypt(key, plain), ciphertext)
        for s in (1, 2, 3, 4, 7, 9):
            same("vector, masked", joined_block(prng, house, s, key, plain), ciphertext)
    records = [house, twin_record(house, 3, 8)]
    for s in SHARE_COUNTS:
        for record in records:
            key, plain = prng.bytes(10), prng.bytes(8)
            expected = present.encrypt(key, plain)
            same("masked is unmasked", joined_block(prng, record, s, key, plain), expected)


def joined(shares, s):
    return add_up(cut_shares(shares, s)).to_bytes(8, "big")


def test_open():
    """The vectors and random blocks opened, the totals, the parts, and which record is refused."""
    prng = Prng(9)
    inverse_table = bytes(present.INVERSE_SBOX)
    house, back = house_record(PRESENT_TABLE), house_record(inverse_table)
    blocks = list(present.vectors())
    for _ in range(9):
        key, plain = prng.bytes(10), prng.bytes(8)
        blocks.append((key, plain, present.encrypt(key, plain)))
    for number, (key, plain, ciphertext) in enumerate(blocks):
        s = 1 + number % 9
        inputs = sharing(prng, key, s), sharing(prng, ciphertext, s), prng.bytes(open_random(s))
        answer = open_block(house, back, s, *inputs, bytes(8 * s))
        same("opened", joined(answer.outputs[0], s), plain)
        same("counts", answer.values, (1116, 279 * s * (s - 1), open_steps(s)))
    # The key's way forth is that of sealing, and the block's parts are its parts backwards.
    trace = Trace(4, prng.bytes(open_random(2)))
    masked_open(trace, house, back, 2, prng.bytes(20), prng.bytes(16))
    same("steps", len(trace.values), open_steps(2))
    update = 2 * 20 + sbox_steps((4, 4), 2) + 2
    same("round number", trace.touched[update - 2 : update], [(0,), (0,)])
    short = 1, bytes(10), bytes(8), b"", bytes(8)
    same("exchanged", open_block(back, house, *short)[:2], (6, (0,)))
    same("first twice", open_block(house, house, *short)[:2], (6, (0,)))
    same("second short", open_block(house, back[:5], *short).number, 2)
    same("last step", open_watch(house, back, *short[:4], [open_steps(1) - 1], b"\xee").number, 0)
    same("no step", open_watch(house, back, *short[:4], [open_steps(1)], b"\xee").number, 8)


def test_unshared():
    """Both ways at the vectors, each undoes the other, and the lengths."""
    prng = Prng(8)
    pairs = [(key, plain) for key, plain, _ in present.vectors()]
    pairs += [(prng.bytes(10), prng.bytes(8)) for _ in range(50)]
    for key, plain, ciphertext in present.vectors():
        same("Encrypt", encrypt(key, plain, bytes(8)), (0, (), (ciphertext,)))
        same("Decrypt", decrypt(key, ciphertext, bytes(8)), (0, (), (plain,)))
    for key, block in pairs:
        ciphertext = encrypt(key, block, bytes(8)).outputs[0]
        same("Decrypt undoes Encrypt", decrypt(key, ciphertext, bytes(8)).outputs[0], block)
        plain = decrypt(key, block, bytes(8)).outputs[0]
        same("Encrypt undoes Decrypt", encrypt(key, plain, bytes(8)).outputs[0], block)
    for i in range(64):
        same("inverse permutation", present.unpermute(1 << present.bit_target(i)), 1 << i)
    for key in range(13):
        for block in range(11):
            for n in range(11):
                number = 0 if (key, block, n) == (10, 8, 8) else 2
                out = b"\xee" * n
                for operation in (encrypt, decrypt):
                    answer = operation(bytes(key), bytes(block), out)
                    same("lengths", answer.number, number)
                    same("unchanged if refused", answer.outputs[0] == out, number != 0)


def test_watch():
    """A watch shows the trace, place by place."""
    prng = Prng(6)
    house = house_record(PRESENT_TABLE)
    inputs = prng.bytes(20), prng.bytes(16), prng.bytes(block_random(2))
    trace = Trace(4, inputs[2])
    masked_block(trace, house, 2, *inputs[:2])
    total = len(trace.values)
    steps = [total - 1, 0, 5, 5, *[prng.below(total) for _ in range(60)]]
    answer = block_watch(house, 2, *inputs, steps, b"\xee" * 64)
    same("watched values", list(answer.outputs[0]), [trace.values[k] for k in steps])
    same("watched counts", answer.values, trace.counts())
    same("empty list", block_watch(house, 2, *inputs, [], b"").outputs, (b"",))


# ------------------------------------------------------------------------ AES

# Appendix A.1 of FIPS 197: the words 0 to 43 of the first vector's key.
AES_WORDS = """
2b7e1516 28aed2a6 abf71588 09cf4f3c a0fafe17 88542cb1 23a33939 2a6c7605
f2c295f2 7a96b943 5935807a 7359f67f 3d80477d 4716fe3e 1e237e44 6d7a883b
ef44a541 a8525b7f b671253b db0bad00 d4d1c6f8 7c839d87 caf2b8bc 11f915bc
6d88a37a 110b3efd dbf98641 ca0093fd 4e54f70e 5f5fc9f3 84a64fb2 4ea6dc4f
ead27321 b58dbad2 312bf560 7f8d292f ac7766f3 19fadc21 28d12941 575c006e
d014f9a8 c9ee2589 e13f0cc8 b6630ca6
""".split()

# What appendices A.1 and B have on the way to the ciphertext of the first vector.
AES_EXAMPLE = {
    "RotWord": "cf4f3c09",
    "SubWord": "8a84eb01",
    "word 4": AES_WORDS[4],
    "word 5": AES_WORDS[5],
    "word 6": AES_WORDS[6],
    "word 7": AES_WORDS[7],
    "round 1": "193de3bea0f4e22b9ac68d2ae9f84808",
    "SubBytes": "d42711aee0bf98f1b8b45de51e415230",
    "ShiftRows": "d4bf5d30e0b452aeb84111f11e2798e5",
    "MixColumns": "046681e5e0cb199a48f8d37a2806264c",
    "round 2": "a49c7ff2689f352b6b5bea43026a5049",
    "output": aes.VECTORS[0][2],
}


def join_all(sharing):
    """The sum of the shares, byte by byte."""
    return bytes(add_up(column) for column in zip(*sharing))


def test_aes():
    """Unmasked: the standard's examples, its table, and its vectors."""
    same("{57} times {83}", product(8, 0x57, 0x83), 0xC1)
    same("{57} times {13}", product(8, 0x57, 0x13), 0xFE)
    for a in range(256):
        same("x^254 is the inverse", power(8, a, 254), aes.inverse(a))
    same("table", bytes(aes.substitute(a) for a in range(256)), aes.SBOX)
    same("table at {53}", aes.SBOX[0x53], 0xED)
    constants = bytes(aes.round_constant(number) for number in range(1, 11))
    same("Rcon", constants.hex(), "01020408102040801b36")
    # The rows of column 0 after ShiftRows come from columns 0, 1, 2, 3.
    same("ShiftRows", aes.shift_rows(list(range(16)))[:5], [0, 5, 10, 15, 4])
    for key, plain, ciphertext in aes.vectors():
        same("vector", aes.encrypt(key, plain), ciphertext)


def test_aes_first_round():
    """Appendix B, from the block to the start of round 2."""
    key, plain, _ = next(aes.vectors())
    keys = aes.expand(key)
    state = list(plain)
    for name, function in (
        ("round 1", lambda a: aes.add(a, keys[0])),
        ("SubBytes", lambda a: [aes.SBOX[byte] for byte in a]),
        ("ShiftRows", aes.shift_rows),
        ("MixColumns", aes.mix_columns),
        ("round 2", lambda a: aes.add(a, keys[1])),
    ):
        state = function(state)
        same(name + " of appendix B", bytes(state).hex(), AES_EXAMPLE[name])


def test_aes_expansion():
    """Appendix A.1, unmasked and in 1 to 9 shares."""
    prng = Prng(13)
    key = bytes.fromhex(aes.VECTORS[0][0])
    words = bytes.fromhex("".join(AES_WORDS))
    same("key expansion", bytes(sum(aes.expand(key), [])), words)
    for s in SHARE_COUNTS:
        trace = Trace(8, prng.bytes(40 * aes_sbox_random(s)))
        keys = masked_expansion(trace, cut_bytes(sharing(prng, key, s), s))
        same("key expansion, masked", b"".join(map(join_all, keys)), words)


def test_aes_sbox():
    """All inputs, all share counts: value and counts."""
    prng = Prng(8)
    for s in SHARE_COUNTS:
        counts = 4, 2 * s * (s - 1), aes_sbox_steps(s)
        for x in range(256):
            masks = prng.bytes(s - 1)
            trace = Trace(8, prng.bytes(aes_sbox_random(s)))
            out = masked_aes_sbox(trace, [x ^ add_up(masks), *masks])
            same("AES S-box joined", add_up(out), aes.SBOX[x])
            same("AES S-box counts", trace.counts(), counts)


def end_of_product(values, first):
    """The result of a masked product of three shares whose steps begin at first."""
    return [values[first + 15], values[first + 22], values[first + 23]]


def test_aes_sbox_steps():
    """The shares y, 1, 0; the squares of y are y^2, y^4, y^8 = 27 and y^16 = 94."""
    random = [7, 11, 13, *Prng(9).bytes(9)]
    trace = Trace(8, random)
    out = masked_aes_sbox(trace, [2, 1, 0])
    values, touched = trace.values, trace.touched
    same("squares", values[:12], [4, 1, 0, 16, 1, 0, 27, 1, 0, 94, 1, 0])
    same("shares of squares", touched[:12], [(0,), (1,), (2,)] * 4)
    # x times x^16: y * y^16 = 188; in the pairs y * 1 = 2 and 1 * y^16 = 94, then zeros.
    same("x^17 starts", values[12:15], [188, 1, 0])
    same("pair (0, 1)", values[15:20], [7, 2, 7 ^ 2, 94, 7 ^ 2 ^ 94])
    same("pair (0, 1)", values[20:22], [188 ^ 7, 1 ^ 7 ^ 2 ^ 94])
    same("pair (0, 2)", values[22:29], [11, 0, 11, 0, 11, 188 ^ 7 ^ 11, 11])
    same("pair (1, 2)", values[29:36], [13, 0, 13, 0, 13, 1 ^ 7 ^ 2 ^ 94 ^ 13, 11 ^ 13])
    same("shares of pair (1, 2)", touched[29:36], [(1, 2)] * 5 + [(1,), (2,)])
    square = [product(8, v, v) for v in values]
    same("x^34", values[36:39], [square[27], square[34], square[35]])
    same("x^68, x^136", values[39:45], square[36:42])
    # Three products follow, of 24 steps each: x^16 by x^34, that by x^68, that by x^136.
    a = values[9:12]
    for number, b in enumerate((values[36:39], values[39:42], values[42:45])):
        first = 45 + 24 * number
        start = [product(8, v, w) for v, w in zip(a, b)]
        same("products start", values[first : first + 3], start)
        same("drawn", values[first + 3], random[3 + 3 * number])
        same("a_0 times b_1", values[first + 4], product(8, a[0], b[1]))
        same("a_1 times b_0", values[first + 6], product(8, a[1], b[0]))
        a = end_of_product(values, first)
    linear = [aes.linear_map(v) for v in a]
    same("constant on share 0", out, [linear[0] ^ 99, linear[1], linear[2]])
    same("affine map", (values[117:], touched[117:]), (out, [(0,), (1,), (2,)]))


class ThreeShares:
    """The steps of appendix B in three shares, joined and held to AES_EXAMPLE."""

    def __init__(self, prng):
        key, plain, _ = next(aes.vectors())
        self.key_shares, self.block_shares = sharing(prng, key, 3), sharing(prng, plain, 3)
        trace = Trace(8, prng.bytes(aes_random(3)))
        self.out = masked_aes(trace, 3, self.key_shares, self.block_shares)
        self.values, self.touched = trace.values, trace.touched

    def share(self, first, i, size=16):
        """Share i of a part of size bytes a share that begins at step first."""
        return self.values[first + size * i : first + size * (i + 1)]

    def bytes_at(self, what, first, size):
        """A part joins to the example, and goes share by share."""
        sums = join_all([self.share(first, i, size) for i in range(3)])
        same(what, sums.hex(), AES_EXAMPLE[what])
        shares = [(i,) for i in range(3) for _ in range(size)]
        same(what + ", shares", self.touched[first : first + 3 * size], shares)

    def boxes_at(self, what, first, count):
        """S-boxes of 120 steps from step first, each ending in the shares of its byte."""
        ends = range(first + 120, first + 120 * (count + 1), 120)
        sums = bytes(add_up(self.values[end - 3 : end]) for end in ends)
        same(what, sums.hex(), AES_EXAMPLE[what])


def test_aes_key_steps():
    """A round key: 12 steps, four S-boxes, 1 step, 12 steps a word: 541 in all."""
    run = ThreeShares(Prng(10))
    values = run.values
    run.bytes_at("RotWord", 0, 4)
    run.boxes_at("SubWord", 12, 4)
    same("Rcon on share 0", (values[492], run.touched[492]), (values[129] ^ 1, (0,)))
    for k in range(4):
        run.bytes_at(f"word {4 + k}", 493 + 12 * k, 4)
    for i in range(3):
        key = list(run.key_shares[16 * i : 16 * i + 16])
        same("RotWord of a share", run.share(0, i, 4), key[13:] + key[12:13])
        word_4, word_5 = run.share(493, i, 4), run.share(505, i, 4)
        same("word 5 of a share", word_5, aes.add(key[4:8], word_4))
    same("second Rcon", values[541 + 492], values[541 + 129] ^ 2)
    same("tenth Rcon", values[9 * 541 + 492], values[9 * 541 + 129] ^ 0x36)


def test_aes_round_steps():
    """After ten round keys 48 steps; a round is 16 S-boxes and three times 48 steps."""
    run = ThreeShares(Prng(10))
    run.bytes_at("round 1", 5410, 16)
    run.boxes_at("SubBytes", 5458, 16)
    run.bytes_at("ShiftRows", 7378, 16)
    run.bytes_at("MixColumns", 7426, 16)
    run.bytes_at("round 2", 7474, 16)
    for i in range(3):
        shares = (data[16 * i : 16 * i + 16] for data in (run.block_shares, run.key_shares))
        same("first AddRoundKey of a share", run.share(5410, i), aes.add(*shares))
        mixed = aes.mix_columns(run.share(7378, i))
        same("MixColumns of a share", run.share(7426, i), mixed)
    run.bytes_at("output", 26002, 16)
    same("output shares", run.values[26002:], list(run.out))


def test_aes_last_round():
    """Round 10 begins at 5458 + 9 * 2064 = 24034 and has no MixColumns."""
    run = ThreeShares(Prng(10))
    for i in range(3):
        bytes_ = [run.values[24034 + 120 * k + 117 + i] for k in range(16)]
        shifted = aes.shift_rows(bytes_)
        same("last ShiftRows of a share", run.share(25954, i), shifted)
        # Words 40 to 43 are the last parts of the tenth round key.
        key = sum((run.share(9 * 541 + 493 + 12 * k, i, 4) for k in range(4)), [])
        same("last AddRoundKey of a share", run.share(26002, i), aes.add(shifted, key))


def test_aes_totals():
    rows = []
    for s in SHARE_COUNTS:
        trace = Trace(8, bytes(aes_random(s)))
        masked_aes(trace, s, bytes(16 * s), bytes(16 * s))
        same("AES counts", trace.counts(), (800, 400 * s * (s - 1), aes_steps(s)))
        same("parts end", list(aes_parts(s))[-1] + 16 * s, aes_steps(s))
        same("shares touched", max(map(len, trace.touched)), min(s, 2))
        if s in (1, 3, 5, 9):
            rows.append(trace.counts()[1:])
    same("AES totals", rows, [(0, 3090), (2400, 26050), (8000, 71410), (28800, 229330)])


def joined_aes(prng, s, key, plain):
    random, out = prng.bytes(aes_random(s)), b"\xee" * 16 * s
    answer = aes_block(s, sharing(prng, key, s), sharing(prng, plain, s), random, out)
    return join(answer.outputs[0], s, b"\xee" * 16).outputs[0]


def test_aes_block():
    prng = Prng(11)
    for s in SHARE_COUNTS:
        for key, plain, ciphertext in aes.vectors():
            same("vector, masked", joined_aes(prng, s, key, plain), ciphertext)
        key, plain = prng.bytes(16), prng.bytes(16)
        same("masked is unmasked", joined_aes(prng, s, key, plain), aes.encrypt(key, plain))


def test_aes_edges():
    for s, number in ((0, 7), (1, 0), (9, 0), (10, 7), (2**32 - 1, 7)):
        n = s if s < 11 else 1
        inputs = s, bytes(16 * n), bytes(16 * n), bytes(aes_random(n))
        same("AES share count", aes_block(*inputs, bytes(16 * n)).number, number)
        same("watch AES share count", aes_block_watch(*inputs, [], b"").number, number)
    out = b"\xee" * 48
    for n, number in ((2399, 2), (2400, 0), (2401, 2)):
        answer = aes_block(3, bytes(48), bytes(48), bytes(n), out)
        same("random bytes of AES, three shares", answer.number, number)
        same("unchanged if refused", answer.outputs[0] == out, number != 0)
    inputs = 3, bytes(48), bytes(48), bytes(2400)
    same("last step", aes_block_watch(*inputs, [26049], b"\xee").number, 0)
    answer = aes_block_watch(*inputs, [26049, 26050], b"\xee\xee")
    same("no step", answer, (8, (1,), (b"\xee\xee",)))
    same("65 numbers", aes_block_watch(*inputs, [26050] * 65, b"\xee" * 65).number, 2)
    same("unequal", aes_block_watch(*inputs, [26050], b"").number, 2)


def test_aes_watch():
    """A watch shows the trace, place by place."""
    prng = Prng(12)
    inputs = prng.bytes(32), prng.bytes(32), prng.bytes(aes_random(2))
    trace = Trace(8, inputs[2])
    masked_aes(trace, 2, *inputs[:2])
    total = len(trace.values)
    steps = [total - 1, 0, 5, 5, *[prng.below(total) for _ in range(60)]]
    answer = aes_block_watch(2, *inputs, steps, b"\xee" * 64)
    same("watched values", list(answer.outputs[0]), [trace.values[k] for k in steps])
    same("watched counts", answer.values, trace.counts())
    same("empty list", aes_block_watch(2, *inputs, [], b"").outputs, (b"",))


# ------------------------------------------------------------------- demand 3


def two_share_traces(record, secret):
    """The traces of all 4,096 choices of a two-share S-box at width 4."""
    for mask in range(16):
        for choice in range(256):
            trace = Trace(4, [choice])
            masked_sbox(trace, record, [secret ^ mask, mask])
            yield trace


def test_two_shares():
    """Step 9 shows the secret; the steps of one share alone do not."""
    record = random_record(Prng(7), (4, 4))
    by_share = {}
    for secret, zeros in ((0, 256), (1, 512), (11, 512)):
        step_9 = 0
        seen = Counter(), Counter()
        for trace in two_share_traces(record, secret):
            step_9 += trace.values[9] == 0
            for share in (0, 1):
                alone = [v for v, t in zip(trace.values, trace.touched) if t == (share,)]
                seen[share][bytes(alone)] += 1
        same("zeros at step 9", step_9, zeros)
        by_share[secret] = seen
    same("one share alone", by_share[0] == by_share[1] == by_share[11], True)


# ----------------------------------------------------------------- case files


def test_case_files():
    same("splitmix64", Prng(1234567).word(), 6457827717110365317)
    numbers = {
        "read": {0, 1, 2, 3, 5, 9},
        "check": {0, 1, 2, 3, 5, 6, 9},
        "fit": {0, 1, 2, 3, 4, 9},
        "house_fit": {0, 2, 3},
        "sbox": {0, 1, 2, 3, 5, 7, 9},
        "sbox_watch": {0, 1, 2, 3, 5, 7, 8, 9},
        "open": {0, 1, 2, 3, 5, 6, 7, 9},
        "open_watch": {0, 1, 2, 3, 5, 6, 7, 8, 9},
        "encrypt": {0, 2},
        "decrypt": {0, 2},
        "aes_block": {0, 2, 7},
        "aes_block_watch": {0, 2, 7, 8},
        "split": {0, 2, 7},
        "join": {0, 2, 7},
    }
    for name, expected in numbers.items():
        data = encode_file(name, INPUTS[name]())
        decoded = list(decode_file(name, data))
        same("encoded again", encode_file(name, [case[0] for case in decoded]), data)
        same("numbers in " + name, {words[0] for _, words, _ in decoded}, expected)


TESTS = (
    test_fields,
    test_checks_on_paper,
    test_edges,
    test_layouts,
    test_heads,
    test_versions,
    test_low_bits,
    test_fit,
    test_fit_over_bits,
    test_low_bits_alone,
    test_des_tables,
    test_reach,
    test_des_not_reached,
    test_sbox,
    test_sbox_figures,
    test_step_rules,
    test_block_totals,
    test_block,
    test_open,
    test_unshared,
    test_watch,
    test_aes,
    test_aes_first_round,
    test_aes_expansion,
    test_aes_sbox,
    test_aes_sbox_steps,
    test_aes_key_steps,
    test_aes_round_steps,
    test_aes_last_round,
    test_aes_totals,
    test_aes_block,
    test_aes_edges,
    test_aes_watch,
    test_two_shares,
    test_case_files,
)

if __name__ == "__main__":
    for test in TESTS:
        before = len(failures)
        test()
        print(f"{test.__name__}: {'ok' if len(failures) == before else 'FAILED'}")
    sys.exit(1 if failures else 0)
