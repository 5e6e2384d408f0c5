"""AES-128, unmasked, straight from FIPS 197.

Bytes are in the order of the standard's input bytes: byte r + 4c is row r of
column c of the state. A word is four bytes, a round key four words.
"""

import field

ROUNDS = 10
AFFINE_CONSTANT = 0x63

# The standard's table, 16 entries a row.
SBOX = bytes.fromhex(
    "637c777bf26b6fc53001672bfed7ab76"
    "ca82c97dfa5947f0add4a2af9ca472c0"
    "b7fd9326363ff7cc34a5e5f171d83115"
    "04c723c31896059a071280e2eb27b275"
    "09832c1a1b6e5aa0523bd6b329e32f84"
    "53d100ed20fcb15b6acbbe394a4c58cf"
    "d0efaafb434d338545f9027f503c9fa8"
    "51a3408f929d38f5bcb6da2110fff3d2"
    "cd0c13ec5f974417c4a77e3d645d1973"
    "60814fdc222a908846eeb814de5e0bdb"
    "e0323a0a4906245cc2d3ac629195e479"
    "e7c8376d8dd54ea96c56f4ea657aae08"
    "ba78252e1ca6b4c6e8dd741f4bbd8b8a"
    "703eb5664803f60e613557b986c11d9e"
    "e1f8981169d98e949b1e87e9ce5528df"
    "8ca1890dbfe6426841992d0fb054bb16"
)

# Key, block, ciphertext: appendices B and C.1.
VECTORS = (
    (
        "2b7e151628aed2a6abf7158809cf4f3c",
        "3243f6a8885a308d313198a2e0370734",
        "3925841d02dc09fbdc118597196a0b32",
    ),
    (
        "000102030405060708090a0b0c0d0e0f",
        "00112233445566778899aabbccddeeff",
        "69c4e0d86a7b0430d8cdb78070b4c55a",
    ),
)


def multiply(a, b):
    return field.PRODUCT[8][a][b]


def inverse(byte):
    """0 for 0."""
    return field.inverse(8, byte) if byte else 0


def linear_map(byte):
    """The affine map but its constant.

    Bit i is the sum of bits i, i + 4, i + 5, i + 6 and i + 7, counted round.
    """
    result = 0
    for i in range(8):
        for k in (i, i + 4, i + 5, i + 6, i + 7):
            result ^= (byte >> k % 8 & 1) << i
    return result


def substitute(byte):
    """One byte of SubBytes, as the standard explains its table."""
    return linear_map(inverse(byte)) ^ AFFINE_CONSTANT


def shift_rows(state):
    """Row r moves r columns to the left."""
    return [state[r + 4 * ((c + r) % 4)] for c in range(4) for r in range(4)]


def mix_columns(state):
    result = []
    for c in range(4):
        column = state[4 * c : 4 * c + 4]
        for r in range(4):
            a, b, *others = column[r:] + column[:r]
            result.append(multiply(2, a) ^ multiply(3, b) ^ others[0] ^ others[1])
    return result


def rotate_word(word):
    return word[1:] + word[:1]


def round_constant(number):
    """The first byte of Rcon for a round key, counted from 1."""
    return field.power(8, 2, number - 1)


def add(a, b):
    return [x ^ y for x, y in zip(a, b, strict=True)]


def expand(key):
    """The eleven round keys."""
    words = [list(key[4 * i : 4 * i + 4]) for i in range(4)]
    for i in range(4, 4 * (ROUNDS + 1)):
        temp = words[i - 1]
        if i % 4 == 0:
            temp = [SBOX[byte] for byte in rotate_word(temp)]
            temp[0] ^= round_constant(i // 4)
        words.append(add(words[i - 4], temp))
    return [sum(words[4 * r : 4 * r + 4], []) for r in range(ROUNDS + 1)]


def encrypt(key, block):
    keys = expand(key)
    state = add(block, keys[0])
    for number in range(1, ROUNDS + 1):
        state = shift_rows([SBOX[byte] for byte in state])
        if number < ROUNDS:
            state = mix_columns(state)
        state = add(state, keys[number])
    return bytes(state)


def vectors():
    for texts in VECTORS:
        yield tuple(bytes.fromhex(text) for text in texts)


if __name__ == "__main__":
    for key, block, ciphertext in vectors():
        if encrypt(key, block) != ciphertext:
            raise SystemExit("AES-128 differs from the vectors of FIPS 197")
    print("the two vectors of FIPS 197 agree")
