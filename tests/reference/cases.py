"""The inputs of the cases: valid, at the edges and damaged, all from fixed seeds.

Each function NAME_cases yields the inputs of one operation after another. What
the operation answers is worked out when the case is written down.
"""

from itertools import combinations, product

import aes
import des
from aes_steps import aes_random, aes_sbox_steps, aes_steps
from decomposition import (
    HOUSE_BASIS,
    LETTERS,
    PARTS,
    RECORD_LENGTH,
    WORK_LENGTH,
    basis_length,
    cut,
    head_length,
    pack_record,
    pair_of,
    solve,
    table_of,
    version_of,
)
from field import EXPONENTS, PRODUCT, evaluate
from operations import random_limit, split
from present import INVERSE_SBOX, SBOX, encrypt, vectors
from prng import Prng
from steps import block_random, block_steps, open_random, open_steps, sbox_random, sbox_steps

# A pair is the width and the output bits; a layout is the pair and the version.
PAIRS = tuple(PARTS)
LAYOUTS = tuple((pair, version) for version in (1, 2) for pair in RECORD_LENGTH[version])
SHARE_COUNTS = range(1, 10)
PRESENT_TABLE = bytes(SBOX)
INVERSE_TABLE = bytes(INVERSE_SBOX)

# Refused share counts. Some have a low byte, or low two bytes, that would do.
WRONG_SHARE_COUNTS = (0, 10, 11, 16, 127, 128, 255, 256, 257, 259, 265, 65535, 65536)
WRONG_SHARE_COUNTS += (65537, 2**24 + 3, 2**31, 2**31 + 1, 2**32 - 1)
WRONG_WIDTHS = (0, 1, 2, 3, 5, 7, 8, 10, 16, 64, 255, 256, 260, 262, 65540, 2**32 - 1)
WRONG_BITS = (0, 1, 2, 3, 5, 7, 8, 24, 64, 255, 256, 260, 262, 65540, 65542, 2**32 - 1)


# --------------------------------------------------------------- small helpers


def put(data, place, value):
    return data[:place] + bytes([value]) + data[place + 1 :]


def one_off(length):
    return [n for n in (length - 1, length + 1) if n >= 0]


def resize(prng, data, length, limit):
    """The same data cut short, or with entries from 1 to limit - 1 put after it."""
    more = max(0, length - len(data))
    return data[:length] + bytes(1 + prng.below(limit - 1) for _ in range(more))


def change_length(prng, inputs, place, length, limit=256):
    changed = list(inputs)
    changed[place] = resize(prng, inputs[place], length, limit)
    return tuple(changed)


def large(prng, limit):
    """An entry that is too large: at the limit, at the top, or between."""
    return prng.pick((limit, 255, limit + prng.below(256 - limit)))


def sharing(prng, value, s):
    masks = prng.bytes(len(value) * (s - 1))
    return split(value, s, masks, bytes(len(value) * s)).outputs[0]


# --------------------------------------------------------------------- records


def zero_record(pair, version=2):
    return pack_record(pair, bytes(basis_length(pair)), bytes(p_length(pair)), version)


def p_length(pair):
    return PARTS[pair] * len(EXPONENTS[pair[0]])


def random_record(prng, pair, version=2):
    limit = 2 ** pair[0]
    basis = prng.elements(limit, basis_length(pair))
    return pack_record(pair, basis, prng.elements(limit, p_length(pair)), version)


def full_record(pair, version=2):
    """Every coefficient the largest there is."""
    top = 2 ** pair[0] - 1
    return pack_record(pair, [top] * basis_length(pair), [top] * p_length(pair), version)


def in_version(record, version):
    """The same coefficients in a record of another version."""
    return pack_record(pair_of(record), record[head_length(record) :], b"", version)


def any_version(prng, record):
    """A record of equal widths in either version."""
    return in_version(record, 1 + prng.below(2)) if record[5] == record[6] else record


def house_record(table, version=2):
    return pack_record((4, 4), HOUSE_BASIS, solve((4, 4), table, HOUSE_BASIS), version)


def fitted_record(prng, table):
    """A width 4 record for the table, with a random basis."""
    while True:
        basis = prng.elements(16, 9)
        p = solve((4, 4), table, basis)
        if p is not None:
            return pack_record((4, 4), basis, p)


def twin_record(record, c, d):
    """Another record of the same form at width 4, one that Fit would not give.

    c added to p1 is met by c*q1 added to p2; d*q1 added to p1 is met by d*q1^2
    added to p2, and the squares of the listed powers are listed themselves.
    """
    q, p1, p2 = (list(part) for part in cut(4, record[head_length(record) :]))
    times = PRODUCT[4]
    p1[0] ^= c
    for k, exponent in enumerate(EXPONENTS[4]):
        p1[k] ^= times[d][q[k]]
        p2[k] ^= times[c][q[k]]
        double = EXPONENTS[4].index(exponent * 2 % 15)
        p2[double] ^= times[d][times[q[k]][q[k]]]
    return pack_record((4, 4), q, p1 + p2, version_of(record))


def present_records(prng, table=PRESENT_TABLE):
    """Records of PRESENT's table: from Fit with several bases, and others; both versions."""
    house = house_record(table)
    records = [house] + [fitted_record(prng, table) for _ in range(4)]
    records += [twin_record(house, 1, 0), twin_record(house, 0, 1), twin_record(house, 9, 14)]
    records.append(twin_record(records[1], 5, 3))
    return [in_version(record, 2 - k % 2) for k, record in enumerate(records)]


def almost_present_records():
    """For each input, a record whose form differs from PRESENT's table there only."""
    for x in range(16):
        yield house_record(put(PRESENT_TABLE, x, PRESENT_TABLE[x] ^ 1 << x % 4), 1 + x % 2)


def damaged_headers(record):
    """Wrong marks, versions and widths; the rest as it was."""
    for place in range(5):
        for value in (record[place] ^ 1, record[place] ^ 32, record[place] + 2, 255):
            yield put(record, place, value)
    yield put(record, 4, 3 - record[4])  # the other version: the rest does not go with it
    yield put(put(record, 3, record[4]), 4, 0)  # the bytes of the version exchanged
    yield put(record, 3, 1)
    yield b"PCD" + record[3:]
    other_width = 10 - record[5]
    for width in (0, 1, 2, 3, 5, 7, 8, 12, 16, 64, 128 + record[5], 255, other_width):
        yield put(record, 5, width)


def damaged_bits(record):
    """Output bits that do not pair with the width, and other pairs than the record's."""
    for bits in (0, 1, 2, 3, 4, 5, 6, 7, 8, 12, 64, 128 + record[6], 255):
        if bits != record[6]:
            yield put(record, 6, bits)


def damaged_coefficients(prng, record, places):
    limit = 2 ** record[5]
    for k, place in enumerate(places):
        yield put(record, place, (limit, 255, limit + 1, large(prng, limit))[k % 4])


def coefficient_places(record):
    return range(head_length(record), len(record))


def doubly_damaged(prng, record):
    """Several things wrong at once: the order of the tests decides."""
    limit = 2 ** record[5]
    last = len(record) - 1
    for _ in range(4):
        first = head_length(record) + prng.below(last - head_length(record))
        second = first + 1 + prng.below(last - first)
        yield put(put(record, first, large(prng, limit)), second, large(prng, limit))
    bad_coefficient = put(record, last - 1, 255)
    yield bad_coefficient[:-1]  # length before coefficient
    yield bad_coefficient + b"\x00"
    yield put(bad_coefficient, 5, 5)  # width before coefficient
    yield put(record, 5, 5)[:-1]  # width before length
    yield put(put(record, 5, 5), 0, 0)  # mark before width
    yield put(put(bad_coefficient, 5, 5), 0, 0)[:-1]  # mark before all that
    yield put(put(record, 5, 9), 4, 3)[:-1]
    yield put(record, 1, 0)[:5]  # under 6 bytes before the mark
    if version_of(record) == 2:
        yield from doubly_damaged_bits(record)


def doubly_damaged_bits(record):
    wrong_bits = put(record, 6, 5)
    yield put(wrong_bits, 5, 5)  # width before output bits
    yield put(wrong_bits, 4, 3)  # version before output bits
    yield put(record[:6], 5, 5)  # width before the length of six bytes
    yield wrong_bits[:7]  # output bits before length
    yield wrong_bits[:-1]
    yield wrong_bits + b"\x00"
    yield put(wrong_bits, len(record) - 1, 255)  # output bits before coefficient


def refused_records(prng, record):
    """What Read refuses, for the other operations that test a record.

    At width 4 every byte is damaged once; at width 6 a part of them.
    """
    for place in range(6):
        # Version 2 less one is a version too.
        yield put(record, place, record[place] ^ (1 if place != 4 else 4))
    step = 1 if record[5] == 4 else 19
    yield from damaged_coefficients(prng, record, coefficient_places(record)[::step])
    yield from damaged_coefficients(prng, record, [len(record) - 1])
    for length in (0, 5, 6, 7, len(record) - 1):
        yield record[:length]
    yield record + b"\x00"
    yield put(record, 4, 3 - record[4])
    for width in (0, 5, 8, 255, 10 - record[5]):
        yield put(record, 5, width)
    if version_of(record) == 2:
        for bits in (0, 5, 10 - record[6], 255):
            yield put(record, 6, bits)
    yield from doubly_damaged(prng, record)


# ------------------------------------------------------------------------ Read


def short_and_odd_heads():
    """All heads of some versions, widths and output bits, at the lengths of interest,
    with coefficients of 0 and with one that is too large."""
    lengths = (5, 6, 7, 33, 34, 102, 139, 140)
    for version, width, bits in product((0, 1, 2, 3), (4, 5, 6), (0, 4, 5, 6, 255)):
        whole = LETTERS + bytes([0, version, width, bits]) + bytes(140)
        for length in lengths:
            yield whole[:length]
            if length > 7:
                yield put(whole[:length], length - 1, 255)


def read_cases():
    prng = Prng(101)
    house = house_record(PRESENT_TABLE)
    yield (house,)
    yield (in_version(house, 1),)
    for pair, version in LAYOUTS:
        yield (zero_record(pair, version),)
        yield (full_record(pair, version),)
        for _ in range(8):
            yield (random_record(prng, pair, version),)

    for record in (house, *[random_record(prng, *layout) for layout in LAYOUTS]):
        for damaged in damaged_headers(record):
            yield (damaged,)
        for damaged in doubly_damaged(prng, record):
            yield (damaged,)
        for place in coefficient_places(record):
            yield (put(record, place, 255 if place % 2 else 2 ** record[5]),)
            if record[5] == 4:
                yield (put(record, place, 2 ** record[5] if place % 2 else 255),)
        if version_of(record) == 2:
            for damaged in damaged_bits(record):
                yield (damaged,)
    # In a width 6 record 16 to 63 are fine, in a width 4 one they are not.
    for version in (1, 2):
        yield (put(zero_record((6, 6), version), 77, 63),)
        yield (put(zero_record((4, 4), version), 20, 63),)
    yield (put(zero_record((6, 4)), 77, 63),)

    for version in (1, 2):
        record = in_version(house, version)
        for length in range(len(record)):
            yield (record[:length],)
        for length in (33, 34, 35, 64, 101, 102, 103, 138, 139, 140, 141):
            yield (resize(prng, record, length, 16),)
    for layout in LAYOUTS:
        if layout[0][0] == 6:
            wide = random_record(prng, *layout)
            for length in (0, 5, 6, 7, 8, 32, 33, 34, 101, 102, 103, 138, 139, 140, 141, 278):
                yield (resize(prng, wide, length, 64),)
    yield from ((record,) for record in short_and_odd_heads())
    yield (b"DCP",)
    yield (bytes(6),)
    yield (bytes(7),)
    yield (bytes(33),)
    yield (bytes(34),)
    yield (bytes(139),)
    yield (b"\xff" * 33,)


# ----------------------------------------------------------------------- Check


def check_cases():
    prng = Prng(102)
    for record in present_records(prng):
        yield record, PRESENT_TABLE
    for pair, version in LAYOUTS:
        size = 2 ** pair[0]
        yield zero_record(pair, version), bytes(size)
        yield full_record(pair, version), table_of(full_record(pair, version))
        for _ in range(10):
            record = random_record(prng, pair, version)
            yield record, table_of(record)

    for record in almost_present_records():
        yield record, PRESENT_TABLE
    for pair in PAIRS:
        size, limit = 2 ** pair[0], 2 ** pair[1]
        record = any_version(prng, random_record(prng, pair))
        table = table_of(record)
        for x in range(size):
            yield record, put(table, x, table[x] ^ 1 << x % pair[1])
        for _ in range(6):  # several differ: the first counts
            yield record, table_of(random_record(prng, pair))
            x = prng.below(size - 1)
            later = x + 1 + prng.below(size - 1 - x)
            yield record, put(put(table, x, table[x] ^ 1), later, table[later] ^ 3)

        for x in range(size):
            yield record, put(table, x, limit if x % 2 else 255)
        for _ in range(4):
            x = prng.below(size)
            bad = put(table, x, large(prng, limit))
            x = prng.below(size)
            yield record, put(bad, x, large(prng, limit))
            yield record, put(put(table, 0, table[0] ^ 1), size - 1, 255)  # 3 before 6
        for length in (0, 1, 15, 16, 17, 32, 63, 64, 65, 256):
            if length != size:
                yield record, resize(prng, table, length, limit)
        yield record, b"\xff" * (size - 1)  # 2 before 3
    for layout in LAYOUTS:
        record = random_record(prng, *layout)
        table = table_of(record)
        for damaged in refused_records(prng, record):
            yield damaged, table
        yield record[:-1], table[:-1]  # Read's before 2 and 3
        yield put(record, 5, 7), b"\xff" * 7
        yield put(record, len(record) - 1, 255), table[:-1]
    # The same coefficients with another reading of the table's bits: 16 to 63 are entries
    # of (6, 6) alone, and so is the whole form.
    narrow = random_record(prng, (6, 4))
    q1, q2, p1, p2, p3 = cut(6, narrow[7:])
    none = bytes(19)
    wide = pack_record((6, 6), q1 + q2 + none, p1 + p2 + none + p3)
    for record in (narrow, wide, in_version(wide, 1)):
        yield record, table_of(wide)
        yield record, table_of(narrow)


# ------------------------------------------------------------- Fit, House fit


def fit_inputs(prng, pair, table, basis):
    work = bytes([1 + prng.below(255)]) * WORK_LENGTH[pair]
    return *pair, bytes(table), bytes(basis), work, prng.pattern(RECORD_LENGTH[2][pair])


def basis_of(pair, *terms):
    """One q for each set of exponents given; the others are 0."""
    basis = bytearray(basis_length(pair))
    exponents = EXPONENTS[pair[0]]
    for k, chosen in enumerate(terms):
        for exponent in chosen:
            basis[k * len(exponents) + exponents.index(exponent)] = 1
    return bytes(basis)


def thin_bases(prng, pair):
    """Bases of low rank: many columns are combinations of earlier ones."""
    width, size = pair[0], len(EXPONENTS[pair[0]])
    yield bytes(basis_length(pair))
    for exponent in EXPONENTS[width]:
        yield basis_of(pair, [exponent])
    yield basis_of(pair, [1, 2])
    yield basis_of(pair, [0, 3])
    yield bytes([2**width - 1]) + bytes(basis_length(pair) - 1)
    q, none = prng.elements(2**width, size), bytes(size)
    if pair == (6, 6):
        yield q + q + q
        yield none + none + q
        yield q + none + none
        yield none + q + prng.elements(64, size)
        yield basis_of(pair, [1], [2], [4])
        yield basis_of(pair, [3], [6], [11])
        yield basis_of(pair, [0], [0], [1, 11])
    if pair == (6, 4):
        yield q + q
        yield none + q
        yield q + none
        yield basis_of(pair, [1], [2])
        yield basis_of(pair, [3], [11])
        yield basis_of(pair, [0], [1, 11])


def table_from(prng, pair, basis):
    """A table that some p meets: the low bits of the form with random p."""
    p = prng.elements(2 ** pair[0], p_length(pair))
    return table_of(pack_record(pair, basis, p))


def random_basis(prng, pair):
    return prng.elements(2 ** pair[0], basis_length(pair))


def quadratic_table(prng):
    """Six bits in, four out, each bit a polynomial of degree 2 in the input bits."""
    table = [0] * 64
    for bit in range(4):
        chosen = [(i, j) for i in range(6) for j in range(i + 1) if prng.below(2)]
        for x in range(64):
            for i, j in chosen:
                table[x] ^= (x >> i & x >> j & 1) << bit
    return bytes(table)


def shuffled(prng, size):
    table = list(range(size))
    for k in range(size - 1, 0, -1):
        other = prng.below(k + 1)
        table[k], table[other] = table[other], table[k]
    return bytes(table)


def fit_solvable_and_none(prng):
    for pair in PAIRS:
        size, limit = 2 ** pair[0], 2 ** pair[1]
        identity = bytes(x % limit for x in range(size))
        for basis in (
            random_basis(prng, pair),
            bytes(basis_length(pair)),
            basis_of(pair, [1, 2, 3]),
        ):
            yield fit_inputs(prng, pair, bytes(size), basis)
            yield fit_inputs(prng, pair, identity, basis)
            yield fit_inputs(prng, pair, bytes([limit - 1]) * size, basis)
            for x in (0, 1, size - 1):  # 1, 0, 0 .. and the like
                yield fit_inputs(prng, pair, put(bytes(size), x, 1), basis)
        for basis in thin_bases(prng, pair):
            yield fit_inputs(prng, pair, table_from(prng, pair, basis), basis)
            yield fit_inputs(prng, pair, prng.elements(limit, size), basis)
        for _ in range(24):
            basis, other = random_basis(prng, pair), random_basis(prng, pair)
            yield fit_inputs(prng, pair, table_from(prng, pair, basis), basis)
            yield fit_inputs(prng, pair, table_from(prng, pair, other), basis)
        for _ in range(8):
            basis = random_basis(prng, pair)
            yield fit_inputs(prng, pair, prng.elements(limit, size), basis)
            yield fit_inputs(prng, pair, bytes(v % limit for v in shuffled(prng, size)), basis)
    for _ in range(12):
        yield fit_inputs(prng, (4, 4), PRESENT_TABLE, prng.elements(16, 9))
        yield fit_inputs(prng, (4, 4), prng.elements(16, 16), prng.elements(16, 9))
        table = quadratic_table(prng)
        yield fit_inputs(prng, (6, 6), table, random_basis(prng, (6, 6)))
        yield fit_inputs(prng, (6, 4), table, random_basis(prng, (6, 4)))
    yield fit_inputs(prng, (4, 4), PRESENT_TABLE, HOUSE_BASIS)
    yield fit_inputs(prng, (4, 4), b"\x0f" * 16, b"\x0f" * 9)
    yield fit_inputs(prng, (6, 4), b"\x0f" * 64, b"\x3f" * 38)
    # One bit changed in a table that fits: none fits any more.
    for pair in ((6, 6), (6, 4)):
        basis = random_basis(prng, pair)
        table = table_from(prng, pair, basis)
        for x in (0, 31, 63):
            yield fit_inputs(prng, pair, put(table, x, table[x] ^ 1 << pair[1] - 1), basis)


def low_bits_alone(prng):
    """Tables that fit in their low four bits over q1, q2, and not in six: filled with zeros
    they take a third q, and with other upper bits that does not help either."""
    for _ in range(4):
        basis = random_basis(prng, (6, 4))
        table = table_from(prng, (6, 4), basis)
        upper = bytes(16 * prng.below(4) for _ in table)
        filled = bytes(low ^ high for low, high in zip(table, upper))
        third = prng.elements(64, 19)
        yield fit_inputs(prng, (6, 4), table, basis)
        yield fit_inputs(prng, (6, 6), table, basis + bytes(19))
        yield fit_inputs(prng, (6, 6), table, basis + third)
        yield fit_inputs(prng, (6, 6), filled, basis + third)


def des_fits(prng):
    """No basis reaches a table of DES, in four bits or in six."""
    for table in des.TABLES:
        for basis in (bytes(38), basis_of((6, 4), [1, 3], [11]), random_basis(prng, (6, 4))):
            yield fit_inputs(prng, (6, 4), table, basis)
        yield fit_inputs(prng, (6, 6), table, random_basis(prng, (6, 6)))


def fit_wrong_pairs(good):
    """1 and 9, with slices that would do, and with more that is wrong."""
    pair, slices = good[:2], good[2:]
    for wrong in WRONG_WIDTHS:
        yield wrong, pair[1], *slices
    for wrong in WRONG_BITS:
        yield pair[0], wrong, *slices
    for other in ((4, 4), (4, 6), (6, 4), (6, 6)):
        yield *other, *slices
    none = (b"\xff", b"", b"\x01", b"\xff")
    yield 5, 5, *slices  # 1 before 9
    yield 10, 4, *none
    yield 5, pair[1], *none  # 1 before 2 and 3
    yield 5, 0, *none
    yield pair[0], 5, *none  # 9 before 2 and 3
    yield pair[0], 5, b"\xff" + slices[0][1:], *slices[1:]


def fit_wrong_lengths(prng, good):
    pair = good[:2]
    for place in (2, 3, 5):
        length = len(good[place])
        for n in [*one_off(length), 0, 1, 2 * length]:
            yield change_length(prng, good, place, n, 2 ** pair[1])
    for n in sorted({34, 140, 102, 33, 139} - {len(good[5])}):
        yield change_length(prng, good, 5, n)
    for n in sorted({9, 57, 38} - {len(good[3])}):
        yield change_length(prng, good, 3, n, 2 ** pair[0])
    right = WORK_LENGTH[pair]
    # The work of the other pairs, and with room for the powers of all inputs.
    for n in sorted({0, 1, right - 1, right + 1, *WORK_LENGTH.values(), 448, 6144} - {right}):
        yield *good[:4], b"\x77" * n, good[5]
    for place in range(2, 6):  # 2 before 3
        bad = *pair, put(good[2], 0, 255), put(good[3], 0, 255), *good[4:]
        yield *bad[:place], bad[place][:-1], *bad[place + 1 :]


def fit_wrong_entries(prng, good):
    """Entries too large through the table and then the basis, each with its own limit."""
    pair = good[:2]
    size = 2 ** pair[0]
    limits = [2 ** pair[1]] * size + [2 ** pair[0]] * basis_length(pair)
    entries = good[2] + good[3]
    step = 1 if pair[0] == 4 else 7
    places = [*range(0, len(entries), step), size - 1, size, len(entries) - 1]
    for k, place in enumerate(places):
        limit = limits[place]
        bad = put(entries, place, (limit, 255, large(prng, limit))[k % 3])
        yield fit_inputs(prng, pair, bad[:size], bad[size:])
        fine = put(entries, place, limit - 1)
        if k % 4 == 0:
            yield fit_inputs(prng, pair, fine[:size], fine[size:])
    for _ in range(6):
        bad = entries
        for _ in range(2):
            place = prng.below(len(bad))
            bad = put(bad, place, large(prng, limits[place]))
        yield fit_inputs(prng, pair, bad[:size], bad[size:])
    unit = put(bytes(size), 0, 1)  # 3 before 4
    yield fit_inputs(prng, pair, put(unit, size - 1, limits[0]), bytes(basis_length(pair)))


def bit_tables():
    """A table of width 4 for each bit of its entries: all tables are sums of these."""
    return [put(bytes(16), bit // 4, 1 << bit % 4) for bit in range(64)]


def fit_cases():
    prng = Prng(103)
    yield from fit_solvable_and_none(prng)
    yield from low_bits_alone(prng)
    yield from des_fits(prng)
    for pair in PAIRS:
        good = fit_inputs(prng, pair, bytes(2 ** pair[0]), random_basis(prng, pair))
        yield from fit_wrong_pairs(good)
        yield from fit_wrong_lengths(prng, good)
        yield from fit_wrong_entries(prng, good)
    for table in bit_tables():  # no 4 over the house basis, whoever passes it
        yield fit_inputs(prng, (4, 4), table, HOUSE_BASIS)


def house_fit_inputs(prng, table):
    return bytes(table), bytes([1 + prng.below(255)]) * WORK_LENGTH[4, 4], prng.pattern(34)


def house_fit_cases():
    prng = Prng(104)
    inverse = bytes(SBOX.index(x) for x in range(16))
    for table in (PRESENT_TABLE, inverse, bytes(range(16)), bytes(range(15, -1, -1))):
        yield house_fit_inputs(prng, table)
    for value in range(16):
        yield house_fit_inputs(prng, bytes([value]) * 16)
        yield house_fit_inputs(prng, put(bytes(16), value, 1))
        yield house_fit_inputs(prng, put(bytes(16), 15 - value, value))
        yield house_fit_inputs(prng, put(b"\x0f" * 16, value, 15 ^ 1 << value % 4))
    for coefficients in range(9):  # the listed powers themselves
        alone = put(bytes(9), coefficients, 1 + prng.below(15))
        yield house_fit_inputs(prng, bytes(evaluate(4, alone, x) for x in range(16)))
    for bits in (1, 2, 3):  # fewer output bits
        for _ in range(8):
            yield house_fit_inputs(prng, prng.elements(2**bits, 16))
    for _ in range(60):
        yield house_fit_inputs(prng, shuffled(prng, 16))
        yield house_fit_inputs(prng, prng.elements(16, 16))

    good = house_fit_inputs(prng, prng.elements(16, 16))
    for place in range(16):
        for value in (16, 255, large(prng, 16)):
            yield house_fit_inputs(prng, put(good[0], place, value))
    for _ in range(12):
        bad = good[0]
        for _ in range(2):
            bad = put(bad, prng.below(16), large(prng, 16))
        yield house_fit_inputs(prng, bad)
    for n in (0, 1, 15, 17, 25, 64):
        yield change_length(prng, good, 0, n, 16)
        yield (put(resize(prng, good[0], n, 16), 0, 255), *good[1:])  # 2 before 3
    for n in (0, 1, 303, 305, 448, 4928, 11008):
        yield good[0], b"\x5a" * n, good[2]
        yield put(good[0], 3, 255), b"\x5a" * n, good[2]
    for n in (0, 1, 32, 33, 35, 102, 140):
        yield change_length(prng, good, 2, n)
        yield change_length(prng, (put(good[0], 0, 16), *good[1:]), 2, n)
    for table in bit_tables():
        yield house_fit_inputs(prng, table)


# ----------------------------------------------------------- S-box, its watch


def sbox_inputs(prng, record, s):
    """Record, s, shares, random: all that the S-box and its watch have in common."""
    width = record[5]
    random = prng.elements(random_limit(width), sbox_random(pair_of(record), s))
    return record, s, prng.elements(2**width, s), random


def sbox_special_inputs(prng, record, s):
    """Zeros and largest elements in shares and random."""
    width, count = record[5], sbox_random(pair_of(record), s)
    limit, bound = 2**width, random_limit(width)
    yield record, s, bytes(s), bytes(count)
    yield record, s, bytes([limit - 1]) * s, bytes([bound - 1]) * count
    yield record, s, prng.elements(limit, s), bytes(count)
    yield record, s, bytes(s), prng.elements(bound, count)


def sbox_wrong_elements(prng, pair):
    """Elements too large at each place of shares and, at width 6, of random."""
    width, limit = pair[0], 2 ** pair[0]
    record = any_version(prng, random_record(prng, pair))
    for s in (1, 2, 3, 9):
        good = sbox_inputs(prng, record, s)
        entries, rest = (good[2], good[3]) if width == 4 else (good[2] + good[3], b"")
        last = len(entries) - 1
        places = range(last + 1) if s < 4 or width == 4 else (0, 8, 9, 10, 50, last)
        for k, place in enumerate(places):
            bad = put(entries, place, (limit, 255, large(prng, limit))[k % 3])
            yield record, s, bad[:s], bad[s:] + rest
        for _ in range(3):
            bad = entries
            for _ in range(2):
                bad = put(bad, prng.below(len(bad)), large(prng, limit))
            yield record, s, bad[:s], bad[s:] + rest


def sbox_wrong_counts(prng, record):
    """Share counts refused, with the lengths that go with a small number of shares:
    the count itself, its low byte, or 1."""
    for s in WRONG_SHARE_COUNTS:
        fitting = s if s < 12 else s % 256 if s % 256 < 10 else 1
        yield (record, s, *sbox_inputs(prng, record, fitting)[2:])


def sbox_valid(prng):
    for s in SHARE_COUNTS:
        for pair in PAIRS:
            for _ in range(5):
                yield sbox_inputs(prng, any_version(prng, random_record(prng, pair)), s)
            yield from sbox_special_inputs(prng, random_record(prng, pair), s)
            yield sbox_inputs(prng, any_version(prng, full_record(pair)), s)
        yield sbox_inputs(prng, zero_record((4, 4)), s)
        for record in present_records(prng)[-3:]:
            yield sbox_inputs(prng, record, s)
    house = house_record(PRESENT_TABLE)
    for x in range(16):
        masks = prng.elements(16, 2)
        yield house, 3, bytes([x ^ masks[0] ^ masks[1]]) + masks, prng.bytes(3)
    # The versions of one record give the same.
    for pair in ((4, 4), (6, 6)):
        for s in (1, 2, 5):
            record, *rest = sbox_inputs(prng, random_record(prng, pair), s)
            yield record, *rest
            yield in_version(record, 1), *rest


def sbox_wrong_lengths(prng, record):
    """Lengths one off and those of other pairs, and of one element a byte."""
    pair, limit = pair_of(record), 2 ** record[5]
    for s in SHARE_COUNTS:
        good = (*sbox_inputs(prng, record, s), prng.pattern(s))
        for place in (2, 3, 4):
            for n in one_off(len(good[place])):
                yield change_length(prng, good, place, n, limit)
        for n in sorted({sbox_random(other, s) for other in PAIRS} | {s * (s - 1)}):
            if n != sbox_random(pair, s):
                yield change_length(prng, good, 3, n, limit)
    for n in (0, 2, 6, 8, 64, 192):
        yield (*sbox_inputs(prng, record, 3), prng.pattern(n))


def sbox_cases():
    prng = Prng(105)
    for inputs in sbox_valid(prng):
        yield (*inputs, prng.pattern(inputs[1]))

    for layout in LAYOUTS:
        record = random_record(prng, *layout)
        good = (*sbox_inputs(prng, record, 3), prng.pattern(3))
        for damaged in refused_records(prng, record):
            yield (damaged, *good[1:])
        yield record[:-1], 0, b"\xff", b"\xff", b"\x01"  # Read's before 7, 2, 3
        yield put(record, 5, 5), 0, b"\xff", b"\xff", b"\x01"
        yield put(record, len(record) - 1, 255), 0, b"\xff", b"\xff", b"\x01"
        yield record, 0, b"\xff", b"\xff", b"\x01"  # 7 before 2 and 3
    for pair in PAIRS:
        record = any_version(prng, random_record(prng, pair))
        for inputs in sbox_wrong_counts(prng, record):
            yield (*inputs, prng.pattern(len(inputs[2])))
        yield from sbox_wrong_lengths(prng, record)
        random = b"\xff" * sbox_random(pair, 3)
        bad = (record, 3, b"\xff" * 3, random, prng.pattern(3))
        for place in (2, 3, 4):  # 2 before 3
            yield (*bad[:place], bad[place][:-1], *bad[place + 1 :])
        for inputs in sbox_wrong_elements(prng, pair):
            yield (*inputs, prng.pattern(inputs[1]))


def windows(first, end):
    """The numbers from first to end - 1 in lists of up to 64."""
    for start in range(first, end, 64):
        yield list(range(start, min(start + 64, end)))


def odd_lists(prng, total):
    """Lists accepted: short, long, out of order, with repeats, at the edges."""
    last = total - 1
    yield []
    yield [0]
    yield [last]
    yield [last, 0, last]
    yield [last - k for k in range(57)]
    yield [last] * 64
    yield [prng.below(total) for _ in range(63)]
    yield [prng.below(total) for _ in range(64)]
    few = [prng.below(total) for _ in range(5)]
    yield [prng.pick(few) for _ in range(40)]


def late_lists(prng, total):
    """Lists with a number that is no step's: at the front, in the middle, last."""
    for number in (total, total + 1, 2**31, 2**32 - 1):
        for length, place in ((1, 0), (64, 63), (20, prng.below(20)), (64, prng.below(64))):
            steps = [prng.below(total) for _ in range(length)]
            steps[place] = number
            yield steps
    steps = [prng.below(total) for _ in range(30)]
    steps[7], steps[19] = total + 5, total
    yield steps
    yield [total] * 64


def watch_wrong_lengths():
    """Numbers of steps and of values that do not go together, or are too many."""
    yield from ((0, 1), (1, 0), (1, 2), (2, 1), (63, 64), (64, 63), (64, 65))
    yield from ((65, 65), (65, 64), (64, 0), (66, 66), (128, 128), (300, 300))


def sbox_watch_cases():
    prng = Prng(106)
    # Every step of the S-box, at all share counts at width 4.
    whole = [((4, 4), s) for s in SHARE_COUNTS]
    whole += [(pair, s) for pair in ((6, 6), (6, 4)) for s in (1, 2, 3)]
    for pair, s in whole:
        inputs = sbox_inputs(prng, any_version(prng, random_record(prng, pair)), s)
        for steps in windows(0, sbox_steps(pair, s)):
            yield (*inputs, steps, prng.pattern(len(steps)))
    for pair in PAIRS:
        for s in SHARE_COUNTS:
            total = sbox_steps(pair, s)
            inputs = sbox_inputs(prng, any_version(prng, random_record(prng, pair)), s)
            for steps in odd_lists(prng, total):
                yield (*inputs, steps, prng.pattern(len(steps)))
            for inputs in sbox_special_inputs(prng, random_record(prng, pair), s):
                steps = [prng.below(total) for _ in range(16)]
                yield (*inputs, steps, prng.pattern(16))
            yield (*inputs, [total], prng.pattern(1))

    for layout in LAYOUTS:
        record = random_record(prng, *layout)
        good = (*sbox_inputs(prng, record, 3), [9, 200, 0], prng.pattern(3))
        for damaged in refused_records(prng, record):
            yield (damaged, *good[1:])
        yield record[:-1], 0, b"\xff", b"\xff", [2**32 - 1], b""
        yield put(record, 5, 5), 0, b"\xff", b"\xff", [2**32 - 1], b""
        yield put(record, len(record) - 1, 255), 0, b"\xff", b"\xff", [2**32 - 1], b""
        yield record, 10, b"\xff", b"\xff", [2**32 - 1], b""
    for pair in PAIRS:
        yield from sbox_watch_refused(prng, any_version(prng, random_record(prng, pair)))


def sbox_watch_refused(prng, record):
    """Refused for what is not the record."""
    pair, limit = pair_of(record), 2 ** record[5]
    total = sbox_steps(pair, 3)
    for inputs in sbox_wrong_counts(prng, record):
        yield (*inputs, [0, 1], prng.pattern(2))
    for s in SHARE_COUNTS:
        base = (*sbox_inputs(prng, record, s), [5, 4], prng.pattern(2))
        for place in (2, 3):
            for n in one_off(len(base[place])):
                yield change_length(prng, base, place, n, limit)
    good = sbox_inputs(prng, record, 3)
    for listed, lent in watch_wrong_lengths():
        steps = [prng.below(total) for _ in range(listed)]
        yield (*good, steps, prng.pattern(lent))
    yield (*good, [total] * 65, prng.pattern(65))  # 2 before 8
    yield (record, 3, b"\xff" * 3, good[3], [1], b"")  # 2 before 3
    yield (record, 3, b"\xff" * 3, good[3], [total], b"\x01")  # 3 before 8
    for inputs in sbox_wrong_elements(prng, pair):
        yield (*inputs, [0, 0, 8], prng.pattern(3))
    for steps in late_lists(prng, total):
        yield (*good, steps, prng.pattern(len(steps)))


# ----------------------------------------------------------- Block, its watch

# How many valid blocks of each share count: random bytes grow with s(s - 1).
BLOCKS = {1: 16, 2: 14, 3: 7, 4: 4, 5: 2, 6: 2, 7: 1, 8: 1, 9: 2}
WATCHED_BLOCKS = {1: 12, 2: 12, 3: 6, 4: 4, 5: 2, 6: 1, 7: 1, 8: 1, 9: 1}


def block_inputs(prng, record, s, key=None, block=None):
    """Record, s, key shares, block shares, random."""
    key_shares = prng.bytes(10 * s) if key is None else sharing(prng, key, s)
    block_shares = prng.bytes(8 * s) if block is None else sharing(prng, block, s)
    return record, s, key_shares, block_shares, prng.bytes(block_random(s))


def block_refused_early(prng, records):
    """Refused before the lengths are tested, so the slices can be short."""
    house = records[0]
    for version in (1, 2):
        for damaged in refused_records(prng, in_version(house, version)):
            yield damaged, 1, bytes(10), bytes(8), b""
    for pair, version in LAYOUTS:
        if pair[0] == 6:
            wide = random_record(prng, pair, version)
            for damaged in refused_records(prng, wide):
                yield damaged, 2, b"", b"", b""
            # Read's, then 1
            for record in (wide, zero_record(pair, version), full_record(pair, version)):
                yield record, 1, bytes(10), bytes(8), b""
                yield record, 0, b"", b"", b"\xff"
    for record in almost_present_records():
        yield record, 1, prng.bytes(10), prng.bytes(8), b""
    for place in coefficient_places(house):  # another coefficient, still an element
        yield put(house, place, house[place] ^ 1 + prng.below(15)), 1, bytes(10), bytes(8), b""
    for record in (zero_record((4, 4)), full_record((4, 4), 1), random_record(prng, (4, 4))):
        yield record, 1, bytes(10), bytes(8), b""
        yield record, 10, b"", b"", b"\xff"  # 6 before 7 and 2
    for s in WRONG_SHARE_COUNTS:
        low = s % 256
        if low in (1, 2):
            yield (house, s, *block_inputs(prng, house, low)[2:])
        yield records[s % 9], s, b"", b"", b""
    yield house, 0, bytes(10), bytes(8), b"\xff"  # 7 before 2


def block_wrong_lengths(prng, records):
    for s in SHARE_COUNTS:
        record = records[s % 9]
        short = (record, s, prng.bytes(10 * s), prng.bytes(8 * s), b"")
        for place, length in ((2, 10 * s), (3, 8 * s)):
            for n in [*one_off(length), 0, length + 10]:
                yield change_length(prng, short, place, n)
        if s > 1:
            yield short
            yield (*short[:4], b"\xff")
        else:
            yield (*short[:4], b"\x00")
            yield (*short[:4], b"\xff")
        yield record, s, short[3], short[2], b""
    for s in (1, 2):
        good = block_inputs(prng, records[1], s)
        for place in (2, 3, 4):
            for n in one_off(len(good[place])):
                yield change_length(prng, good, place, n)
    three = block_inputs(prng, records[0], 3)
    for n in (1580, 1582, 3162):
        yield change_length(prng, three, 4, n)


def block_any_bytes(prng, records):
    """Single nibbles at the edges of the random bytes: no byte is too large."""
    for s in (2, 3):
        house, _, key, block, random = block_inputs(prng, records[s], s)
        for place in (0, len(random) - 1):
            for byte in (0x01, 0x10, 0x0F, 0xF0):
                yield house, s, key, block, put(bytes(len(random)), place, byte)


def block_versions(prng, records):
    """One record in both versions, with the same shares and random bytes."""
    for s in (1, 2, 3):
        record, *rest = block_inputs(prng, records[s], s)
        for version in (1, 2):
            yield in_version(record, version), *rest


def block_cases():
    prng = Prng(107)
    records = present_records(prng)
    for number, (key, block, _) in enumerate(vectors()):
        for s in (1, 2 + number):
            yield (*block_inputs(prng, records[0], s, key, block), prng.pattern(8 * s))
    for s, count in BLOCKS.items():
        for k in range(count):
            inputs = block_inputs(prng, records[(s + 2 * k) % 9], s)
            yield (*inputs, prng.pattern(8 * s))
    for inputs in block_versions(prng, records):
        yield (*inputs, prng.pattern(8 * inputs[1]))
    house = records[0]
    for s in (2, 3):  # zeros and largest elements
        n = block_random(s)
        yield house, s, bytes(10 * s), bytes(8 * s), bytes(n), prng.pattern(8 * s)
        yield house, s, b"\xff" * 10 * s, b"\xff" * 8 * s, b"\xff" * n, prng.pattern(8 * s)

    for inputs in block_refused_early(prng, records):
        yield (*inputs, prng.pattern(8))
    for inputs in block_wrong_lengths(prng, records):
        yield (*inputs, prng.pattern(8 * inputs[1]))
    for s in (1, 2):
        good = block_inputs(prng, house, s)
        for n in (0, 8 * s - 1, 8 * s + 1, 10 * s, 72):
            yield (*good, prng.pattern(n))
    for inputs in block_any_bytes(prng, records):
        yield (*inputs, prng.pattern(8 * inputs[1]))


def block_parts(s):
    """The number of the first step of each part of a block, in order."""
    box = sbox_steps((4, 4), s)
    step = 0
    for _ in range(31):
        for length in (16 * s, *[box] * 16, 16 * s, 20 * s, box, 2):
            yield step
            step += length
    yield step


def first_part(number):
    """The place of a round's first part in block_parts."""
    return 21 * (number - 1)


def landmarks(prng, s):
    """First steps of the parts of three rounds, and the step before each."""
    parts = list(block_parts(s))
    steps = []
    for number in (1, 2 + prng.below(29), 31):
        start = first_part(number)
        for part in (0, 1, 2, 16, 17, 18, 19, 20, 21):
            steps += [max(parts[start + part] - 1, 0), parts[start + part]]
    return steps + [block_steps(s) - 1]


def watch_lists(prng, total, marks):
    """Lists for watched blocks, over and over. marks() gives one of landmarks."""
    while True:
        yield marks()
        yield [prng.below(total) for _ in range(64)]
        start = prng.below(total - 64)
        yield list(range(start, start + 64))
        yield [total - 1 - k for k in range(64)]


def block_watch_cases():
    prng = Prng(108)
    records = present_records(prng)
    house = records[0]
    # Every step of round 1, of round 31 and of the last key addition, one share.
    parts = list(block_parts(1))
    inputs = block_inputs(prng, records[5], 1)
    for steps in windows(0, parts[first_part(2)]):
        yield (*inputs, steps, prng.pattern(len(steps)))
    for steps in windows(parts[first_part(31)], block_steps(1)):
        yield (*inputs, steps, prng.pattern(len(steps)))
    for s, count in WATCHED_BLOCKS.items():
        lists = watch_lists(prng, block_steps(s), lambda: landmarks(prng, s))
        for k in range(count):
            steps = next(lists)
            inputs = block_inputs(prng, records[(s + 2 * k) % 9], s)
            yield (*inputs, steps, prng.pattern(len(steps)))
    for s in (1, 2):
        inputs = block_inputs(prng, house, s)
        for steps in odd_lists(prng, block_steps(s)):
            yield (*inputs, steps, prng.pattern(len(steps)))
    for inputs in block_versions(prng, records):
        steps = landmarks(Prng(0), inputs[1])
        yield (*inputs, steps, prng.pattern(len(steps)))
    three = block_inputs(prng, house, 3)
    yield (*three, [117196], prng.pattern(1))
    yield (*three, [117197], prng.pattern(1))

    for inputs in block_refused_early(prng, records):
        yield (*inputs, [3, 2, 2], prng.pattern(3))
    for inputs in block_wrong_lengths(prng, records):
        yield (*inputs, [0, 31728], prng.pattern(2))
    one = block_inputs(prng, house, 1)
    for listed, lent in watch_wrong_lengths():
        steps = [prng.below(block_steps(1)) for _ in range(listed)]
        yield (*one, steps, prng.pattern(lent))
    yield (*one, [31729] * 65, prng.pattern(65))  # 2 before 8
    for inputs in block_any_bytes(prng, records):
        steps = landmarks(prng, inputs[1])
        yield (*inputs, steps, prng.pattern(len(steps)))
    for steps in late_lists(prng, block_steps(1)):
        yield (*one, steps, prng.pattern(len(steps)))
    for s in (2, 4):
        inputs = block_inputs(prng, house, s)
        total = block_steps(s)
        yield (*inputs, [total - 1, total, total - 1], prng.pattern(3))


# ------------------------------------------------------------ Open, its watch

# How many valid openings of each share count, as above.
OPENINGS = {1: 8, 2: 8, 3: 4, 4: 2, 5: 1, 6: 1, 7: 1, 8: 1, 9: 1}
WATCHED_OPENINGS = {1: 8, 2: 8, 3: 4, 4: 2, 5: 1, 6: 1, 7: 1, 8: 1, 9: 1}


def open_inputs(prng, records, s, key=None, block=None):
    """Record, inverse record, s, key shares, block shares, random."""
    key_shares = prng.bytes(10 * s) if key is None else sharing(prng, key, s)
    block_shares = prng.bytes(8 * s) if block is None else sharing(prng, block, s)
    return *records, s, key_shares, block_shares, prng.bytes(open_random(s))


def record_pairs(prng):
    return list(zip(present_records(prng), present_records(prng, INVERSE_TABLE)))


def open_refused_early(prng, pairs):
    """Refused before the lengths are tested, so the slices can be short."""
    house, inverse = pairs[0]
    short = (1, bytes(10), bytes(8), b"")
    for damaged in refused_records(prng, house):
        yield damaged, inverse, *short
        yield damaged, damaged, *short  # the first record's refusal
        yield damaged, b"", *short
    for damaged in refused_records(prng, inverse):
        yield house, damaged, *short
        yield house, damaged, 0, b"", b"", b"\xff"  # before 7 and 2
    wide = random_record(prng, (6, 6), 2)
    for record in (wide, random_record(prng, (6, 4), 2)):
        yield record, inverse, *short
        yield house, record, *short
        yield record, b"", *short
    yield inverse, house, *short  # the two exchanged
    yield house, house, *short
    yield inverse, inverse, *short
    yield inverse, wide, *short  # the first's 6 before the second's 1
    for x in range(16):
        other = house_record(put(INVERSE_TABLE, x, INVERSE_TABLE[x] ^ 1 << x % 4), 1 + x % 2)
        yield house, other, *short
        yield house, other, 10, b"", b"", b"\xff"
    for s in WRONG_SHARE_COUNTS:
        low = s % 256
        if low in (1, 2):
            yield (house, inverse, s, *open_inputs(prng, pairs[1], low)[3:])
        yield *pairs[s % 9], s, b"", b"", b""


def open_wrong_lengths(prng, pairs):
    for s in SHARE_COUNTS:
        short = (*pairs[s % 9], s, prng.bytes(10 * s), prng.bytes(8 * s), b"")
        for place, length in ((3, 10 * s), (4, 8 * s)):
            for n in [*one_off(length), 0, length + 10]:
                yield change_length(prng, short, place, n)
        yield (*short[:5], b"\xff")
        yield *short[:3], short[4], short[3], b""
    for s in (1, 2):
        good = open_inputs(prng, pairs[1], s)
        for place in (3, 4, 5):
            for n in one_off(len(good[place])):
                yield change_length(prng, good, place, n)
    three = open_inputs(prng, pairs[0], 3)
    for n in (1581, 1673, 1675, 3348):  # a block's, one off, one element a byte
        yield change_length(prng, three, 5, n)


def open_cases():
    prng = Prng(117)
    pairs = record_pairs(prng)
    for number, (key, _, ciphertext) in enumerate(vectors()):
        for s in (1, 2 + number, 6 + number):
            yield (*open_inputs(prng, pairs[0], s, key, ciphertext), prng.pattern(8 * s))
    for s, count in OPENINGS.items():
        for k in range(count):
            yield (*open_inputs(prng, pairs[(s + 2 * k) % 9], s), prng.pattern(8 * s))
    for s in (1, 2, 3):  # there and back
        key, block = prng.bytes(10), prng.bytes(8)
        yield (*open_inputs(prng, pairs[s], s, key, encrypt(key, block)), prng.pattern(8 * s))
    for s in (2, 3):  # zeros and largest elements
        n = open_random(s)
        yield *pairs[0], s, bytes(10 * s), bytes(8 * s), bytes(n), prng.pattern(8 * s)
        yield *pairs[0], s, b"\xff" * 10 * s, b"\xff" * 8 * s, b"\xff" * n, prng.pattern(8 * s)
    for inputs in open_refused_early(prng, pairs):
        yield (*inputs, prng.pattern(8))
    for inputs in open_wrong_lengths(prng, pairs):
        yield (*inputs, prng.pattern(8 * inputs[2]))
    for s in (1, 2):
        good = open_inputs(prng, pairs[0], s)
        for n in (0, 8 * s - 1, 8 * s + 1, 10 * s, 72):
            yield (*good, prng.pattern(n))


def open_parts(s):
    """The number of the first step of each part of an opening, in order."""
    box = sbox_steps((4, 4), s)
    lengths = [20 * s, box, 2] * 31 + [16 * s]
    lengths += [16 * s, *[box] * 16, 2, box, 20 * s, 16 * s] * 31
    step = 0
    for length in lengths:
        yield step
        step += length


def open_landmarks(prng, s):
    """First steps of some parts, and the step before each."""
    parts = list(open_parts(s))
    chosen = [0, 1, 2, 3, 92, 93, 94, 95, 110, 111, 112, 113, 114, 115]
    chosen += [prng.below(len(parts)) for _ in range(10)] + [len(parts) - 1]
    steps = []
    for part in chosen:
        steps += [max(parts[part] - 1, 0), parts[part]]
    return steps + [open_steps(s) - 1]


def open_watch_cases():
    prng = Prng(118)
    pairs = record_pairs(prng)
    # The first and the last key update, the key addition, round 31 and round 1, one share.
    parts = list(open_parts(1))
    inputs = open_inputs(prng, pairs[5], 1)
    for start, end in ((0, parts[3]), (parts[90], parts[115]), (parts[-21], open_steps(1))):
        for steps in windows(start, end):
            yield (*inputs, steps, prng.pattern(len(steps)))
    for s, count in WATCHED_OPENINGS.items():
        lists = watch_lists(prng, open_steps(s), lambda: open_landmarks(prng, s))
        for k in range(count):
            steps = next(lists)
            inputs = open_inputs(prng, pairs[(s + 2 * k) % 9], s)
            yield (*inputs, steps, prng.pattern(len(steps)))
    for s in (1, 2):
        inputs = open_inputs(prng, pairs[0], s)
        for steps in odd_lists(prng, open_steps(s)):
            yield (*inputs, steps, prng.pattern(len(steps)))
    for inputs in open_refused_early(prng, pairs):
        yield (*inputs, [3, 2, 2], prng.pattern(3))
    for inputs in open_wrong_lengths(prng, pairs):
        yield (*inputs, [0, open_steps(1)], prng.pattern(2))
    one = open_inputs(prng, pairs[0], 1)
    for listed, lent in watch_wrong_lengths():
        steps = [prng.below(open_steps(1)) for _ in range(listed)]
        yield (*one, steps, prng.pattern(lent))
    yield (*one, [open_steps(1)] * 65, prng.pattern(65))  # 2 before 8
    for steps in late_lists(prng, open_steps(1)):
        yield (*one, steps, prng.pattern(len(steps)))
    for s in (2, 4):
        total = open_steps(s)
        yield (*open_inputs(prng, pairs[0], s), [total - 1, total, total - 1], prng.pattern(3))


# ------------------------------------------------------- AES block, its watch

# How many valid blocks of each share count, as above.
AES_BLOCKS = {1: 3, 2: 3, 3: 3, 4: 3, 5: 1, 6: 1, 7: 1, 8: 1, 9: 1}
WATCHED_AES_BLOCKS = {1: 8, 2: 8, 3: 4, 4: 4, 5: 1, 6: 1, 7: 1, 8: 1, 9: 1}


def aes_inputs(prng, s, key=None, block=None):
    """s, key shares, block shares, random."""
    key_shares = prng.bytes(16 * s) if key is None else sharing(prng, key, s)
    block_shares = prng.bytes(16 * s) if block is None else sharing(prng, block, s)
    return s, key_shares, block_shares, prng.bytes(aes_random(s))


def aes_filled_inputs(s, byte):
    return s, byte * 16 * s, byte * 16 * s, byte * aes_random(s)


def aes_wrong_counts(prng):
    """Refused before the lengths are tested, so the slices can be short."""
    for s in WRONG_SHARE_COUNTS:
        low = s % 256
        if low in (1, 2):
            yield (s, *aes_inputs(prng, low)[1:])
        yield s, b"", b"", b""
    for s in (0, 10, 2**32 - 1):  # 7 before 2
        yield s, bytes(16), bytes(16), b"\xff"
        yield s, prng.bytes(160), prng.bytes(159), b""


def one_length_wrong(prng, good, places):
    for place in places:
        length = len(good[place])
        for n in (*one_off(length), 0):
            if n != length:
                yield change_length(prng, good, place, n)


def two_lengths_wrong(prng, good, places):
    """Two at once: the sum of the two right, or both one long."""
    for first, second in combinations(places, 2):
        for more, more_too in ((-1, 1), (1, -1), (1, 1)):
            changed = change_length(prng, good, first, len(good[first]) + more)
            yield change_length(prng, changed, second, len(good[second]) + more_too)


def aes_other_lengths(prng):
    """Lengths of another share count, with a low byte that would do, and of Block."""
    for s in SHARE_COUNTS[1:]:
        yield s, prng.bytes(16), prng.bytes(16), b""
    one, two = aes_inputs(prng, 1), aes_inputs(prng, 2)
    yield 1, *two[1:]
    yield 1, *two[1:3], one[3]
    yield 2, *one[1:3], two[3]
    for place in (1, 2, 3):
        yield change_length(prng, one, place, len(one[place]) + 256)
    yield 2, two[1][:20], two[2][:16], two[3]
    yield change_length(prng, two, 3, block_random(2))


def aes_valid(prng):
    for number, (key, block, _) in enumerate(aes.vectors()):
        for s in (1, 2 + number, 9):
            yield aes_inputs(prng, s, key, block)
    for s, count in AES_BLOCKS.items():
        for _ in range(count):
            yield aes_inputs(prng, s)
    for s in (1, 2, 3):
        yield aes_filled_inputs(s, b"\x00")
        yield aes_filled_inputs(s, b"\xff")


def aes_block_wrong_lengths(prng):
    for s in (1, 2, 3):
        good = (*aes_inputs(prng, s), prng.pattern(16 * s))
        yield from one_length_wrong(prng, good, (1, 2, 3, 4))
    nine = (*aes_inputs(prng, 9), prng.pattern(144))
    for n in one_off(len(nine[3])):
        yield change_length(prng, nine, 3, n)
    two = (*aes_inputs(prng, 2), prng.pattern(32))
    yield from two_lengths_wrong(prng, two, (1, 2, 3, 4))
    for inputs in aes_other_lengths(prng):
        yield (*inputs, prng.pattern(16 * inputs[0]))
    one = aes_inputs(prng, 1)
    yield (*one, prng.pattern(16 + 256))
    yield 1, *two[1:3], one[3], prng.pattern(32)  # all but random as for two shares


def aes_block_cases():
    prng = Prng(111)
    for inputs in aes_valid(prng):
        yield (*inputs, prng.pattern(16 * inputs[0]))

    for inputs in aes_wrong_counts(prng):
        yield (*inputs, prng.pattern(16))
    for s in (0, 10):  # every length right
        yield (*aes_filled_inputs(s, b"\x01"), prng.pattern(16 * s))
    yield from aes_block_wrong_lengths(prng)


def aes_parts(s):
    """The number of the first step of each part of an AES block, in order."""
    box = aes_sbox_steps(s)
    lengths = 10 * [4 * s, *[box] * 4, 1, *[4 * s] * 4]  # round keys 1 to 10
    lengths += [16 * s]
    lengths += 9 * [*[box] * 16, 16 * s, 16 * s, 16 * s]
    lengths += [*[box] * 16, 16 * s, 16 * s]  # no MixColumns
    step = 0
    for length in lengths:
        yield step
        step += length


def aes_key_part(number):
    """The place of a round key's first part in aes_parts, counted from 1."""
    return 10 * (number - 1)


def aes_first_part(number):
    """The place of a round's first part in aes_parts; 0 is the first AddRoundKey."""
    return 101 + 19 * (number - 1) if number else 100


def aes_landmarks(prng, s):
    """First steps of parts, each with the step before it, the last step, and others."""
    parts = list(aes_parts(s))
    places = [aes_key_part(1) + k for k in (0, 1, 5, 6, 9)]
    places += [aes_key_part(2 + prng.below(9)) + k for k in range(10)]
    places.append(aes_first_part(0))
    places += [aes_first_part(1 + prng.below(9)) + k for k in (0, 1, 15, 16, 17, 18)]
    places += [aes_first_part(10) + k for k in (0, 1, 15, 16, 17)]
    steps = [step for k in places for step in (max(parts[k] - 1, 0), parts[k])]
    steps.append(aes_steps(s) - 1)
    return steps + [prng.below(aes_steps(s)) for _ in range(64 - len(steps))]


def aes_watched(prng):
    """Every step of one share, every step of the first round key with two and three,
    and lists at all share counts."""
    for s in (1, 2, 3):
        end = aes_steps(1) if s == 1 else list(aes_parts(s))[aes_key_part(2)]
        inputs = aes_inputs(prng, s)
        for steps in windows(0, end):
            yield inputs, steps
    for s, count in WATCHED_AES_BLOCKS.items():
        lists = watch_lists(prng, aes_steps(s), lambda: aes_landmarks(prng, s))
        for _ in range(count):
            yield aes_inputs(prng, s), next(lists)
    for s in (1, 2):
        inputs = aes_inputs(prng, s)
        for steps in odd_lists(prng, aes_steps(s)):
            yield inputs, steps


def aes_late_lists(prng):
    """Lists with a number that is no step's; at each share count the one past the last."""
    one = aes_inputs(prng, 1)
    for steps in late_lists(prng, aes_steps(1)):
        yield one, steps
    for s in SHARE_COUNTS:
        last = aes_steps(s) - 1
        yield aes_inputs(prng, s), [last, last + 1, last]


def aes_watch_wrong_lengths(prng):
    for s in (1, 2, 3):
        good = (*aes_inputs(prng, s), [0, 3089], prng.pattern(2))
        yield from one_length_wrong(prng, good, (1, 2, 3))
    two = (*aes_inputs(prng, 2), [0, 3089], prng.pattern(2))
    yield from two_lengths_wrong(prng, two, (1, 2, 3, 5))
    for inputs in aes_other_lengths(prng):
        yield (*inputs, [0, 3089], prng.pattern(2))
    one = aes_inputs(prng, 1)
    for listed, lent in watch_wrong_lengths():
        steps = [prng.below(aes_steps(1)) for _ in range(listed)]
        yield (*one, steps, prng.pattern(lent))


def aes_watch_two_faults(prng):
    """Of two tests that neighbour each other the first decides."""
    for s in (0, 10, 2**32 - 1):  # 7 before 2 and 8
        yield s, b"", b"", b"", [0] * 65, prng.pattern(65)
        yield s, b"", b"", b"", [2**32 - 1], b""
        yield s, bytes(16), bytes(16), b"", [3090], prng.pattern(1)
    one = (*aes_inputs(prng, 1), [0, 3090], prng.pattern(2))
    yield from one_length_wrong(prng, one, (1, 2, 3, 5))  # 2 before 8
    yield (*one[:4], [3090] * 65, prng.pattern(65))
    yield (*one[:4], [3090] * 65, prng.pattern(64))


def aes_block_watch_cases():
    prng = Prng(112)
    for inputs, steps in aes_watched(prng):
        yield (*inputs, steps, prng.pattern(len(steps)))

    for inputs in aes_wrong_counts(prng):
        yield (*inputs, [3, 2, 2], prng.pattern(3))
    yield 0, b"", b"", b"", [], b""  # every length right
    yield from aes_watch_wrong_lengths(prng)
    yield from aes_watch_two_faults(prng)
    for inputs, steps in aes_late_lists(prng):
        yield (*inputs, steps, prng.pattern(len(steps)))


# ----------------------------------------------------------- Encrypt, Decrypt


def single_bits(size):
    """For each bit of a value of so many bytes, the value with this bit alone."""
    return [(1 << bit).to_bytes(size, "big") for bit in range(8 * size)]


def unshared_valid(prng):
    """Keys and blocks: zero, all ones, each bit alone, each byte in all bytes, random."""
    for key in (bytes(10), b"\xff" * 10):
        for block in (bytes(8), b"\xff" * 8):
            yield key, block
    for key in single_bits(10):
        yield key, bytes(8)
    for block in single_bits(8):
        yield bytes(10), block
    for byte in range(256):
        yield prng.bytes(10), bytes([byte]) * 8
    for _ in range(200):
        yield prng.bytes(10), prng.bytes(8)


def unshared_refused(prng):
    """Each length wrong by itself, two at once in every way, all three."""
    good = prng.bytes(10), prng.bytes(8), prng.pattern(8)
    yield from one_length_wrong(prng, good, (0, 1, 2))
    for place in (0, 1, 2):
        for other in one_length_wrong(prng, good, (place,)):
            yield from one_length_wrong(prng, other, range(place + 1, 3))
    for place, length in ((0, 8), (0, 16), (0, 20), (1, 10), (1, 16), (2, 10), (2, 16)):
        yield change_length(prng, good, place, length)
    for place in (0, 1, 2):  # the low byte of the length would do
        yield change_length(prng, good, place, len(good[place]) + 256)
    yield good[1], good[0], good[2]  # key and block exchanged
    yield prng.bytes(9), prng.bytes(7), prng.pattern(7)
    yield b"", b"", b""


def unshared_cases(prng, some):
    """Some keys and blocks, those of both operations, and what is refused."""
    for key, block in (*some, *unshared_valid(prng)):
        yield key, block, prng.pattern(8)
    yield from unshared_refused(prng)


def encrypt_cases():
    return unshared_cases(Prng(113), [(key, block) for key, block, _ in vectors()])


def decrypt_cases():
    return unshared_cases(Prng(114), [(key, block) for key, _, block in vectors()])


# ----------------------------------------------------------------- Split, Join


def split_cases():
    prng = Prng(109)
    yield b"\x07", 3, b"\x01\x02", prng.pattern(3)
    for s in SHARE_COUNTS:
        for size in range(1, 17):
            masks = prng.bytes(size * (s - 1))
            yield prng.bytes(size), s, masks, prng.pattern(size * s)
        for size in (1, 16):
            masks = bytes(size * (s - 1))
            yield b"\xff" * size, s, masks, prng.pattern(size * s)
            yield bytes(size), s, b"\xff" * len(masks), prng.pattern(size * s)

    for s in WRONG_SHARE_COUNTS:
        yield prng.bytes(2), s, prng.bytes(4), prng.pattern(6)
        yield b"", s, b"", b""
    yield bytes(17), 10, bytes(1), prng.pattern(3)  # 7 before 2
    for s in SHARE_COUNTS:
        for size in (0, 17, 18, 32):  # the other lengths go with it
            yield prng.bytes(size), s, prng.bytes(size * (s - 1)), prng.pattern(size * s)
        for size in (1, 8, 10, 16):
            good = (prng.bytes(size), s, prng.bytes(size * (s - 1)), prng.pattern(size * s))
            for place in (2, 3):
                for n in one_off(len(good[place])):
                    yield change_length(prng, good, place, n)
    yield b"", 1, b"", prng.pattern(1)
    yield prng.bytes(8), 3, prng.bytes(8), prng.pattern(16)  # as if for two shares
    yield prng.bytes(8), 3, prng.bytes(24), prng.pattern(24)  # a mask too many


def join_cases():
    prng = Prng(110)
    yield b"\x04\x01\x02", 3, prng.pattern(1)
    for s in SHARE_COUNTS:
        for size in range(1, 17):
            yield prng.bytes(size * s), s, prng.pattern(size)
        for size in (1, 16):
            yield b"\xff" * size * s, s, prng.pattern(size)
            yield bytes(size * s), s, prng.pattern(size)

    for s in WRONG_SHARE_COUNTS:
        yield prng.bytes(6), s, prng.pattern(2)
        yield b"", s, b""
    yield bytes(5), 10, prng.pattern(17)  # 7 before 2
    for s in SHARE_COUNTS:
        for size in (0, 17, 18, 32):
            yield prng.bytes(size * s), s, prng.pattern(size)
        for size in (1, 8, 10, 16):
            for n in (size * s - 1, size * s + 1, size * (s + 1), size * (s - 1)):
                yield prng.bytes(n), s, prng.pattern(size)
    yield b"", 1, prng.pattern(1)
    yield prng.bytes(1), 1, b""


INPUTS = {
    "read": read_cases,
    "check": check_cases,
    "fit": fit_cases,
    "house_fit": house_fit_cases,
    "sbox": sbox_cases,
    "sbox_watch": sbox_watch_cases,
    "block": block_cases,
    "block_watch": block_watch_cases,
    "open": open_cases,
    "open_watch": open_watch_cases,
    "encrypt": encrypt_cases,
    "decrypt": decrypt_cases,
    "aes_block": aes_block_cases,
    "aes_block_watch": aes_block_watch_cases,
    "split": split_cases,
    "join": join_cases,
}
