"""PRESENT-80, unmasked, straight from the standard (CHES 2007)."""

SBOX = (12, 5, 6, 11, 9, 0, 10, 13, 3, 14, 15, 8, 4, 7, 1, 2)
INVERSE_SBOX = tuple(SBOX.index(value) for value in range(16))
ROUNDS = 31

# Key, block, ciphertext: the authors' four vectors.
VECTORS = (
    ("00000000000000000000", "0000000000000000", "5579c1387b228445"),
    ("ffffffffffffffffffff", "0000000000000000", "e72c46c0f5945049"),
    ("00000000000000000000", "ffffffffffffffff", "a112ffc72f68417b"),
    ("ffffffffffffffffffff", "ffffffffffffffff", "3333dcd3213210d2"),
)


def bit_target(i):
    return 63 if i == 63 else 16 * i % 63


def permute(state):
    result = 0
    for i in range(64):
        result |= (state >> i & 1) << bit_target(i)
    return result


def unpermute(state):
    result = 0
    for i in range(64):
        result |= (state >> bit_target(i) & 1) << i
    return result


def sbox_layer(state, table=SBOX):
    result = 0
    for k in range(16):
        result |= table[state >> 4 * k & 15] << 4 * k
    return result


def rotate(key):
    """80 bits left by 61."""
    return (key << 61 | key >> 19) & (1 << 80) - 1


def unrotate(key):
    """80 bits right by 61."""
    return (key >> 61 | key << 19) & (1 << 80) - 1


def update_key(key, number):
    key = rotate(key)
    key = SBOX[key >> 76] << 76 | key & (1 << 76) - 1
    return key ^ number << 15


def encrypt(key, block):
    """Key of 10 bytes, block of 8, high byte first."""
    key = int.from_bytes(key, "big")
    state = int.from_bytes(block, "big")
    for number in range(1, ROUNDS + 1):
        state ^= key >> 16
        state = permute(sbox_layer(state))
        key = update_key(key, number)
    state ^= key >> 16
    return state.to_bytes(8, "big")


def decrypt(key, block):
    """The ciphertext back: the round keys from the last to the first, each round undone."""
    key = int.from_bytes(key, "big")
    state = int.from_bytes(block, "big")
    round_keys = [key >> 16]
    for number in range(1, ROUNDS + 1):
        key = update_key(key, number)
        round_keys.append(key >> 16)
    state ^= round_keys.pop()
    while round_keys:
        state = sbox_layer(unpermute(state), INVERSE_SBOX) ^ round_keys.pop()
    return state.to_bytes(8, "big")


def vectors():
    for texts in VECTORS:
        yield tuple(bytes.fromhex(text) for text in texts)


if __name__ == "__main__":
    for key, block, ciphertext in vectors():
        if encrypt(key, block) != ciphertext or decrypt(key, ciphertext) != block:
            raise SystemExit("PRESENT-80 differs from the authors' vectors")
    print("the authors' four vectors agree, both ways")
