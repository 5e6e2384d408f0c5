"""Records of decompositions: Read, Check, Fit, House fit.

A table takes n bits and gives m; (n, m) is its pair. The form is p1*q1 + ... +
p(t-1)*q(t-1) + pt over the field of 2^n elements, and it meets a table if its low m
bits are the table's entry at each input.

A record holds the letters DCP, the version (two bytes, high first), n, in version 2
also m, then the basis q1 to q(t-1) and p1 to pt, one byte for each coefficient. In
version 1 m is n.
"""

from answers import (
    NO_FIT,
    OTHER_TABLE,
    TOO_LARGE,
    WRONG_BITS,
    WRONG_LENGTH,
    WRONG_MARK,
    WRONG_WIDTH,
    done,
    lengths_differ,
    refused,
    too_large,
)
from field import EXPONENTS, POWER, PRODUCT, evaluate

LETTERS = b"DCP"
WIDTHS = (4, 6)
PARTS = {(4, 4): 2, (6, 6): 4, (6, 4): 3}  # t
HEAD_LENGTH = {1: 6, 2: 7}
RECORD_LENGTH = {
    1: {(4, 4): 33, (6, 6): 139},
    2: {(4, 4): 34, (6, 6): 140, (6, 4): 102},
}
WORK_LENGTH = {(4, 4): 304, (6, 6): 4928, (6, 4): 11008}
HOUSE_BASIS = bytes([0, 1, 1, 0, 0, 0, 0, 1, 0])  # x + x^2 + x^12


def basis_length(pair):
    return (PARTS[pair] - 1) * len(EXPONENTS[pair[0]])


def pack_record(pair, basis, p, version=2):
    """basis and p: the coefficients of the q, and of the p, one after another."""
    head = LETTERS + bytes([0, version, *pair])[: HEAD_LENGTH[version] - len(LETTERS)]
    return head + bytes(basis) + bytes(p)


def cut(width, coefficients):
    size = len(EXPONENTS[width])
    return [coefficients[k : k + size] for k in range(0, len(coefficients), size)]


# What follows is for records that Read accepts.


def version_of(record):
    return record[3] * 256 + record[4]


def head_length(record):
    return HEAD_LENGTH[version_of(record)]


def pair_of(record):
    width = record[5]
    return width, width if version_of(record) == 1 else record[6]


def unpack_record(record):
    """Width, list of the q, list of the p."""
    pair = pair_of(record)
    polynomials = cut(pair[0], record[head_length(record) :])
    return pair[0], polynomials[: PARTS[pair] - 1], polynomials[PARTS[pair] - 1 :]


def form_at(record, x):
    """All n bits of the form."""
    width, qs, ps = unpack_record(record)
    total = evaluate(width, ps[-1], x)
    for q, p in zip(qs, ps):
        total ^= PRODUCT[width][evaluate(width, p, x)][evaluate(width, q, x)]
    return total


def table_of(record):
    """The table that the record stands for: the low m bits of its form."""
    width, bits = pair_of(record)
    return bytes(form_at(record, x) % 2**bits for x in range(2**width))


# ---------------------------------------------------------------- Read, Check


def record_wrong(record):
    if len(record) < 6:
        return (WRONG_LENGTH, 0)
    if record[:3] != LETTERS or version_of(record) not in (1, 2):
        return (WRONG_MARK, 0)
    if record[5] not in WIDTHS:
        return (WRONG_WIDTH, 0)
    if version_of(record) == 2 and len(record) == 6:
        return (WRONG_LENGTH, 0)
    if pair_of(record) not in PARTS:
        return (WRONG_BITS, 0)
    if len(record) != RECORD_LENGTH[version_of(record)][pair_of(record)]:
        return (WRONG_LENGTH, 0)
    for offset in range(head_length(record), len(record)):
        if record[offset] >= 2 ** record[5]:
            return (TOO_LARGE, offset)  # in a record the place is the offset
    return None


def read(record):
    refusal = record_wrong(record)
    if refusal:
        return refused(refusal)
    return done([record[5]])


def first_difference(record, table):
    """The first input at which the record's table and the given one differ, else None."""
    for x, (mine, given) in enumerate(zip(table_of(record), table, strict=True)):
        if mine != given:
            return x
    return None


def table_wrong(pair, table):
    width, bits = pair
    return lengths_differ((table, 2**width)) or too_large((table, 2**bits))


def check(record, table):
    refusal = record_wrong(record) or table_wrong(pair_of(record), table)
    if refusal:
        return refused(refusal)
    place = first_difference(record, table)
    if place is not None:
        return refused((OTHER_TABLE, place))
    return done()


# ------------------------------------------------------------------------ Fit


def packed(bits, values):
    """Values below 2^bits as one number, so that sums over single bits are one xor."""
    return sum(value << bits * x for x, value in enumerate(values))


def columns(pair, basis):
    """For each unknown bit, in order, what it adds to the low m bits at all inputs."""
    width, bits = pair
    times, inputs = PRODUCT[width], range(2**width)
    for q in cut(width, basis) + [None]:  # pt stands alone: its factor is 1
        factors = [1 if q is None else evaluate(width, q, x) for x in inputs]
        for powers in POWER[width]:
            terms = [times[factors[x]][powers[x]] for x in inputs]
            for bit in range(width):
                yield packed(bits, [times[term][1 << bit] % 2**bits for term in terms])


def reduce(vector, combination, kept):
    """Clear the vector at the lead of each kept one, in the order they were kept.

    A kept vector is 0 at the leads of those kept before it, so what is once
    cleared stays clear.
    """
    for lead, kept_vector, kept_combination in kept:
        if vector & lead:
            vector ^= kept_vector
            combination ^= kept_combination
    return vector, combination


def solve(pair, table, basis):
    """All p, one after another, or None if no p meets the table.

    Goes through the unknown bits in order and keeps a basis of the span of the
    columns so far, each kept vector with the combination of columns it is (bit
    k for unknown k). A column in the span of the earlier ones is dropped: its
    bit is free and appears in no combination, so it is 0 in the answer.
    """
    width, bits = pair
    kept = []
    for unknown, column in enumerate(columns(pair, basis)):
        vector, combination = reduce(column, 1 << unknown, kept)
        if vector:
            lead = vector & -vector
            kept.append((lead, vector, combination))
    rest, answer = reduce(packed(bits, table), 0, kept)
    if rest:
        return None
    count = PARTS[pair] * len(EXPONENTS[width])
    return bytes(answer >> width * k & 2**width - 1 for k in range(count))


def fit(width, bits, table, basis, work, record_out):
    pair = width, bits
    if width not in WIDTHS:
        return refused((WRONG_WIDTH, 0), [work, record_out])
    if pair not in PARTS:
        return refused((WRONG_BITS, 0), [work, record_out])
    refusal = lengths_differ(
        (table, 2**width),
        (basis, basis_length(pair)),
        (work, WORK_LENGTH[pair]),
        (record_out, RECORD_LENGTH[2][pair]),
    ) or too_large((table, 2**bits), (basis, 2**width))
    if refusal:
        return refused(refusal, [work, record_out])
    p = solve(pair, table, basis)
    zeroed = bytes(len(work))
    if p is None:
        return refused((NO_FIT, 0), [zeroed, record_out])
    return done([], [zeroed, pack_record(pair, basis, p)])


def house_fit(table, work, record_out):
    """Fit over the house basis, which decomposes every table: there is no 4."""
    answer = fit(4, 4, table, HOUSE_BASIS, work, record_out)
    assert answer.number != NO_FIT
    return answer
