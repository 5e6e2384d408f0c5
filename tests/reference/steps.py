"""The masked product, the masked S-box and masked PRESENT-80, both ways, step by step.

A sharing is a list of s shares. Every step is recorded: the element it gives
and the shares it touches.
"""

from decomposition import unpack_record
from field import EXPONENTS, PRODUCT
from present import ROUNDS, permute, rotate, unpermute, unrotate


def elements_of(width, random):
    """The random elements in bytes: at width 4 two in each, the high nibble first."""
    if width != 4:
        return list(random)
    return [nibble for byte in random for nibble in divmod(byte, 16)]


def bytes_for(width, count):
    """How many bytes hold so many elements."""
    return (count + 1) // 2 if width == 4 else count


class Trace:
    """Records the steps of one run and deals out its random elements."""

    def __init__(self, width, random):
        self.width = width
        self.random = elements_of(width, random)
        self.values = []  # of each step, the element
        self.touched = []  # of each step, the shares, as a tuple
        self.drawn = 0
        self.products = 0

    def step(self, value, shares):
        self.values.append(value)
        self.touched.append(shares)
        return value

    def draw(self):
        self.drawn += 1
        return self.random[self.drawn - 1]

    def counts(self):
        return self.products, bytes_for(self.width, self.drawn), len(self.values)


# ----------------------------------------------------------- what a run takes


# Of each pair of width and output bits: masked products, and the steps of one share.
SBOX_PRODUCTS = {(4, 4): 2, (6, 6): 5, (6, 4): 4}
SBOX_STEPS_ALONE = {(4, 4): 57, (6, 6): 275, (6, 4): 201}


def sbox_random(pair, s):
    """Random bytes of one S-box."""
    return bytes_for(pair[0], SBOX_PRODUCTS[pair] * s * (s - 1) // 2)


def sbox_steps(pair, s):
    return SBOX_STEPS_ALONE[pair] * s + 7 * SBOX_PRODUCTS[pair] * s * (s - 1) // 2


def block_random(s):
    """Random bytes of one block."""
    return bytes_for(4, 527 * s * (s - 1))


def block_steps(s):
    return 31 * (52 * s + 17 * (7 * s * s + 50 * s) + 2) + 16 * s


def open_random(s):
    """Random bytes of one opening."""
    return bytes_for(4, 558 * s * (s - 1))


def open_steps(s):
    return 31 * (72 * s + 18 * (7 * s * s + 50 * s) + 4) + 16 * s


# ------------------------------------------------------------- masked product


def masked_product(trace, width, a, b):
    times = PRODUCT[width]
    s = len(a)
    c = [trace.step(times[a[i]][b[i]], (i,)) for i in range(s)]
    for i in range(s):
        for j in range(i + 1, s):
            both = (i, j)
            r = trace.step(trace.draw(), both)
            a_i_b_j = trace.step(times[a[i]][b[j]], both)
            blinded = trace.step(r ^ a_i_b_j, both)
            a_j_b_i = trace.step(times[a[j]][b[i]], both)
            r_prime = trace.step(blinded ^ a_j_b_i, both)
            c[i] = trace.step(c[i] ^ r, (i,))
            c[j] = trace.step(c[j] ^ r_prime, (j,))
    trace.products += 1
    return c


# --------------------------------------------------------------------- S-box


def square_all(trace, width, x):
    times = PRODUCT[width]
    return [trace.step(times[v][v], (share,)) for share, v in enumerate(x)]


def powers(trace, width, x):
    """A sharing of x^e for each listed exponent e but 0."""
    power = {1: x}

    def squares(first):
        for _ in range(width - 1):
            double = first * 2 % (2**width - 1)
            power[double] = square_all(trace, width, power[first])
            first = double

    squares(1)
    power[3] = masked_product(trace, width, power[1], power[2])
    squares(3)
    if width == 6:
        power[11] = masked_product(trace, width, power[3], power[8])
        squares(11)
    return power


def polynomial(trace, width, coefficients, power, s):
    result = []
    for share in range(s):
        only = (share,)
        # The constant is added once in all, so to share 0 alone.
        total = coefficients[0] if share == 0 else 0
        for coefficient, exponent in zip(coefficients[1:], EXPONENTS[width][1:]):
            term = trace.step(PRODUCT[width][coefficient][power[exponent][share]], only)
            total = trace.step(total ^ term, only)
        result.append(total)
    return result


def masked_sbox(trace, record, x):
    width, qs, ps = unpack_record(record)
    s = len(x)
    power = powers(trace, width, x)
    q = [polynomial(trace, width, c, power, s) for c in qs]
    p = [polynomial(trace, width, c, power, s) for c in ps]
    products = [masked_product(trace, width, p[k], q[k]) for k in range(len(q))]
    result = []
    for share in range(s):
        total = products[0][share]
        for other in products[1:] + [p[-1]]:
            total = trace.step(total ^ other[share], (share,))
        result.append(total)
    return result


# ---------------------------------------------------------------- PRESENT-80


def to_nibbles(number, count):
    return [number >> 4 * k & 15 for k in range(count)]


def from_nibbles(nibbles):
    return sum(nibble << 4 * k for k, nibble in enumerate(nibbles))


def cut_shares(data, s):
    """The shares of a sharing of a byte string, as numbers, high byte first."""
    size = len(data) // s
    return [int.from_bytes(data[k * size : (k + 1) * size], "big") for k in range(s)]


def record_all(trace, sharing):
    """One step for each nibble (of AES each byte), share by share, number 0 first."""
    for share, parts in enumerate(sharing):
        for part in parts:
            trace.step(part, (share,))
    return sharing


def add_key(trace, state, key):
    """The top 64 bits of the key are its nibbles 4 to 19."""
    return record_all(
        trace, [[a ^ b for a, b in zip(state[i], key[i][4:])] for i in range(len(state))]
    )


def substitute(trace, record, sharing, nibble):
    """The S-box on one nibble of a sharing, in place."""
    outputs = masked_sbox(trace, record, [share[nibble] for share in sharing])
    for share, value in zip(sharing, outputs):
        share[nibble] = value


def permute_all(trace, state):
    return record_all(trace, [to_nibbles(permute(from_nibbles(n)), 16) for n in state])


def add_number(trace, key, number):
    """To bits 19 to 15 of share 0 alone, in place: bit 15 tops nibble 3, the rest is nibble 4."""
    key[0] = to_nibbles(from_nibbles(key[0]) ^ number << 15, 20)
    trace.step(key[0][3], (0,))
    trace.step(key[0][4], (0,))


def update_key(trace, record, key, number):
    key = record_all(trace, [to_nibbles(rotate(from_nibbles(n)), 20) for n in key])
    substitute(trace, record, key, 19)
    add_number(trace, key, number)
    return key


def undo_update(trace, inverse_record, key, number):
    """The parts of an update undone, from the last to the first."""
    key = [list(share) for share in key]
    add_number(trace, key, number)
    substitute(trace, inverse_record, key, 19)
    return record_all(trace, [to_nibbles(unrotate(from_nibbles(n)), 20) for n in key])


def masked_block(trace, record, s, key_shares, block_shares):
    """Key and block shares as bytes, 10 and 8 a share; returns 8s bytes."""
    key = [to_nibbles(share, 20) for share in cut_shares(key_shares, s)]
    state = [to_nibbles(share, 16) for share in cut_shares(block_shares, s)]
    for number in range(1, ROUNDS + 1):
        state = add_key(trace, state, key)
        for nibble in range(16):
            substitute(trace, record, state, nibble)
        state = permute_all(trace, state)
        key = update_key(trace, record, key, number)
    state = add_key(trace, state, key)
    return b"".join(from_nibbles(share).to_bytes(8, "big") for share in state)


def masked_open(trace, record, inverse_record, s, key_shares, block_shares):
    """The block that was sealed. Shares as in masked_block."""
    key = [to_nibbles(share, 20) for share in cut_shares(key_shares, s)]
    state = [to_nibbles(share, 16) for share in cut_shares(block_shares, s)]
    for number in range(1, ROUNDS + 1):
        key = update_key(trace, record, key, number)
    state = add_key(trace, state, key)
    for number in range(ROUNDS, 0, -1):
        state = record_all(trace, [to_nibbles(unpermute(from_nibbles(n)), 16) for n in state])
        for nibble in range(16):
            substitute(trace, inverse_record, state, nibble)
        key = undo_update(trace, inverse_record, key, number)
        state = add_key(trace, state, key)
    return b"".join(from_nibbles(share).to_bytes(8, "big") for share in state)
