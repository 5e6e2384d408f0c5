"""Masked AES-128, step by step.

A string in shares is a list of s lists of bytes. Steps are recorded as in
steps.py: share by share, byte 0 first.
"""

from aes import (
    AFFINE_CONSTANT,
    ROUNDS,
    add,
    linear_map,
    mix_columns,
    rotate_word,
    round_constant,
    shift_rows,
)
from steps import masked_product, record_all, square_all

# ----------------------------------------------------------- what a run takes


def aes_sbox_random(s):
    return 2 * s * (s - 1)


def aes_sbox_steps(s):
    return 12 * s + 14 * s * (s - 1)


def aes_random(s):
    return 400 * s * (s - 1)


def aes_steps(s):
    return 3080 * s + 2800 * s * (s - 1) + 10


# --------------------------------------------------------------------- S-box


def masked_aes_sbox(trace, x):
    """x^254 = ((x^16 * x^34) * x^68) * x^136, then the affine map, of a sharing."""
    x16 = x
    for _ in range(4):
        x16 = square_all(trace, 8, x16)
    x34 = square_all(trace, 8, masked_product(trace, 8, x, x16))
    x68 = square_all(trace, 8, x34)
    x136 = square_all(trace, 8, x68)
    result = x16
    for factor in (x34, x68, x136):
        result = masked_product(trace, 8, result, factor)
    # The constant of the affine map is added once in all, so to share 0 alone.
    return [
        trace.step(linear_map(v) ^ (AFFINE_CONSTANT if share == 0 else 0), (share,))
        for share, v in enumerate(result)
    ]


def substitute(trace, sharing):
    """The S-box on each byte, byte 0 first."""
    columns = [masked_aes_sbox(trace, list(column)) for column in zip(*sharing)]
    return [list(share) for share in zip(*columns)]


# --------------------------------------------------------------------- block


def each_share(trace, function, *sharings):
    """A transformation but SubBytes: the output bytes of each share are its steps."""
    return record_all(trace, [function(*shares) for shares in zip(*sharings)])


def masked_expansion(trace, key):
    """The eleven round keys in shares."""
    words = [[share[4 * i : 4 * i + 4] for share in key] for i in range(4)]
    for number in range(1, ROUNDS + 1):
        temp = each_share(trace, rotate_word, words[-1])
        temp = substitute(trace, temp)
        temp[0][0] = trace.step(temp[0][0] ^ round_constant(number), (0,))
        for _ in range(4):
            temp = each_share(trace, add, words[-4], temp)
            words.append(temp)
    return [
        [sum(parts, []) for parts in zip(*words[4 * r : 4 * r + 4])]
        for r in range(ROUNDS + 1)
    ]


def cut_bytes(data, s):
    """The shares of a sharing of 16 bytes."""
    return [list(data[16 * k : 16 * k + 16]) for k in range(s)]


def masked_aes(trace, s, key_shares, block_shares):
    """Key and block shares as bytes, 16 a share; returns 16s bytes."""
    keys = masked_expansion(trace, cut_bytes(key_shares, s))
    state = each_share(trace, add, cut_bytes(block_shares, s), keys[0])
    for number in range(1, ROUNDS + 1):
        state = substitute(trace, state)
        state = each_share(trace, shift_rows, state)
        if number < ROUNDS:
            state = each_share(trace, mix_columns, state)
        state = each_share(trace, add, state, keys[number])
    return bytes(sum(state, []))
