"""The sixteen operations. Each returns an Answer; the tests come first.

Slices are bytes, a watch list is a list of numbers. An output is given with
its content before the call; the answer holds its content after the call.
"""

import present
from aes_steps import aes_random, aes_steps, masked_aes
from answers import (
    NO_SUCH_STEP,
    OTHER_TABLE,
    WRONG_LENGTH,
    WRONG_WIDTH,
    done,
    lengths_differ,
    refused,
    share_count_wrong,
    too_large,
)
from decomposition import (
    check,
    first_difference,
    fit,
    house_fit,
    pair_of,
    read,
    record_wrong,
)
from steps import (
    Trace,
    block_random,
    block_steps,
    masked_block,
    masked_open,
    open_random,
    open_steps,
    masked_sbox,
    sbox_random,
    sbox_steps,
)

LONGEST_LIST = 64
LONGEST_VALUE = 16


# ---------------------------------------------------------------------- S-box


def random_limit(width):
    """Random bytes are below this: at width 4 all are, as any two nibbles are elements."""
    return 256 if width == 4 else 2**width


def sbox_wrong(record, s, shares, random, more_lengths):
    """more_lengths(): what the call tests under 2 besides shares and random."""
    return (
        record_wrong(record)
        or share_count_wrong(s)
        or lengths_differ((shares, s), (random, sbox_random(pair_of(record), s)))
        or more_lengths()
        or too_large((shares, 2 ** record[5]), (random, random_limit(record[5])))
    )


def sbox(record, s, shares, random, out):
    refusal = sbox_wrong(record, s, shares, random, lambda: lengths_differ((out, s)))
    if refusal:
        return refused(refusal, [out])
    trace = Trace(record[5], random)
    result = masked_sbox(trace, record, list(shares))
    return done(trace.counts(), [result])


def sbox_watch(record, s, shares, random, steps, values):
    refusal = sbox_wrong(
        record, s, shares, random, lambda: list_wrong(steps, values)
    ) or no_such_step(steps, sbox_steps(pair_of(record), s))
    if refusal:
        return refused(refusal, [values])
    trace = Trace(record[5], random)
    masked_sbox(trace, record, list(shares))
    return done(trace.counts(), [watched(trace, steps)])


# ---------------------------------------------------------------------- Block


def table_record_wrong(record, table):
    refusal = record_wrong(record)
    if refusal:
        return refusal
    if record[5] != 4:
        return (WRONG_WIDTH, 0)
    if first_difference(record, table) is not None:
        return (OTHER_TABLE, 0)  # no place is named here, unlike in Check
    return None


def block_wrong(record, s, key_shares, block_shares, random, more_lengths):
    return (
        table_record_wrong(record, present.SBOX)
        or share_count_wrong(s)
        or lengths_differ(
            (key_shares, 10 * s), (block_shares, 8 * s), (random, block_random(s))
        )
        or more_lengths()
    )


def block(record, s, key_shares, block_shares, random, out):
    refusal = block_wrong(
        record, s, key_shares, block_shares, random, lambda: lengths_differ((out, 8 * s))
    )
    if refusal:
        return refused(refusal, [out])
    trace = Trace(4, random)
    result = masked_block(trace, record, s, key_shares, block_shares)
    return done(trace.counts(), [result])


def block_watch(record, s, key_shares, block_shares, random, steps, values):
    refusal = block_wrong(
        record, s, key_shares, block_shares, random, lambda: list_wrong(steps, values)
    ) or no_such_step(steps, block_steps(s))
    if refusal:
        return refused(refusal, [values])
    trace = Trace(4, random)
    masked_block(trace, record, s, key_shares, block_shares)
    return done(trace.counts(), [watched(trace, steps)])


# ----------------------------------------------------------------------- Open


def open_wrong(record, inverse_record, s, key_shares, block_shares, random, more_lengths):
    return (
        table_record_wrong(record, present.SBOX)
        or table_record_wrong(inverse_record, present.INVERSE_SBOX)
        or share_count_wrong(s)
        or lengths_differ(
            (key_shares, 10 * s), (block_shares, 8 * s), (random, open_random(s))
        )
        or more_lengths()
    )


def open_block(record, inverse_record, s, key_shares, block_shares, random, out):
    refusal = open_wrong(
        record,
        inverse_record,
        s,
        key_shares,
        block_shares,
        random,
        lambda: lengths_differ((out, 8 * s)),
    )
    if refusal:
        return refused(refusal, [out])
    trace = Trace(4, random)
    result = masked_open(trace, record, inverse_record, s, key_shares, block_shares)
    return done(trace.counts(), [result])


def open_watch(record, inverse_record, s, key_shares, block_shares, random, steps, values):
    refusal = open_wrong(
        record,
        inverse_record,
        s,
        key_shares,
        block_shares,
        random,
        lambda: list_wrong(steps, values),
    ) or no_such_step(steps, open_steps(s))
    if refusal:
        return refused(refusal, [values])
    trace = Trace(4, random)
    masked_open(trace, record, inverse_record, s, key_shares, block_shares)
    return done(trace.counts(), [watched(trace, steps)])


# ----------------------------------------------------------- Encrypt, Decrypt


def unshared(cipher, key, block, out):
    refusal = lengths_differ((key, 10), (block, 8), (out, 8))
    if refusal:
        return refused(refusal, [out])
    return done([], [cipher(key, block)])


def encrypt(key, block, out):
    return unshared(present.encrypt, key, block, out)


def decrypt(key, block, out):
    return unshared(present.decrypt, key, block, out)


# ------------------------------------------------------------------ AES block


def aes_block_wrong(s, key_shares, block_shares, random, more_lengths):
    return (
        share_count_wrong(s)
        or lengths_differ(
            (key_shares, 16 * s), (block_shares, 16 * s), (random, aes_random(s))
        )
        or more_lengths()
    )


def aes_block(s, key_shares, block_shares, random, out):
    refusal = aes_block_wrong(
        s, key_shares, block_shares, random, lambda: lengths_differ((out, 16 * s))
    )
    if refusal:
        return refused(refusal, [out])
    trace = Trace(8, random)
    result = masked_aes(trace, s, key_shares, block_shares)
    return done(trace.counts(), [result])


def aes_block_watch(s, key_shares, block_shares, random, steps, values):
    refusal = aes_block_wrong(
        s, key_shares, block_shares, random, lambda: list_wrong(steps, values)
    ) or no_such_step(steps, aes_steps(s))
    if refusal:
        return refused(refusal, [values])
    trace = Trace(8, random)
    masked_aes(trace, s, key_shares, block_shares)
    return done(trace.counts(), [watched(trace, steps)])


# ---------------------------------------------------------------------- watch


def list_wrong(steps, values):
    if len(steps) != len(values) or len(steps) > LONGEST_LIST:
        return (WRONG_LENGTH, 0)
    return None


def no_such_step(steps, total):
    for place, step in enumerate(steps):
        if step >= total:
            return (NO_SUCH_STEP, place)
    return None


def watched(trace, steps):
    return [trace.values[step] for step in steps]


# ---------------------------------------------------------------- Split, Join


def value_length_wrong(value):
    if not 1 <= len(value) <= LONGEST_VALUE:
        return (WRONG_LENGTH, 0)
    return None


def add_bytes(a, b):
    return bytes(x ^ y for x, y in zip(a, b, strict=True))


def split(value, s, masks, out):
    size = len(value)
    refusal = (
        share_count_wrong(s)
        or value_length_wrong(value)
        or lengths_differ((masks, size * (s - 1)), (out, size * s))
    )
    if refusal:
        return refused(refusal, [out])
    share_0 = value
    for k in range(s - 1):
        share_0 = add_bytes(share_0, masks[k * size : (k + 1) * size])
    return done([], [share_0 + masks])


def join(shares, s, out):
    """The value of Join is what it writes, so the length of out counts."""
    size = len(out)
    refusal = (
        share_count_wrong(s)
        or value_length_wrong(out)
        or lengths_differ((shares, size * s))
    )
    if refusal:
        return refused(refusal, [out])
    value = bytes(size)
    for k in range(s):
        value = add_bytes(value, shares[k * size : (k + 1) * size])
    return done([], [value])


OPERATIONS = {
    "read": read,
    "check": check,
    "fit": fit,
    "house_fit": house_fit,
    "sbox": sbox,
    "sbox_watch": sbox_watch,
    "block": block,
    "block_watch": block_watch,
    "open": open_block,
    "open_watch": open_watch,
    "encrypt": encrypt,
    "decrypt": decrypt,
    "aes_block": aes_block,
    "aes_block_watch": aes_block_watch,
    "split": split,
    "join": join,
}
