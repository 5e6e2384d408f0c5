"""The case files: one for each operation, in the format told in README.md."""

import struct

from operations import OPERATIONS

# Kinds of field.
BYTES = "bytes"
NUMBER = "number"  # 4 bytes, big-endian
LIST = "list"  # numbers of 4 bytes, big-endian
FILLED = "filled"  # the byte that fills the slice, then its length in 4 bytes

RECORD = ("record", BYTES)
S = ("s", NUMBER)
UNSHARED = (("key", BYTES), ("block", BYTES), ("out", BYTES))

# The parameters of each operation, in the paper's order.
PARAMETERS = {
    "read": (RECORD,),
    "check": (RECORD, ("table", BYTES)),
    "fit": (
        ("width", NUMBER),
        ("bits", NUMBER),
        ("table", BYTES),
        ("basis", BYTES),
        ("work", FILLED),
        ("record_out", BYTES),
    ),
    "house_fit": (("table", BYTES), ("work", FILLED), ("record_out", BYTES)),
    "sbox": (RECORD, S, ("shares", BYTES), ("random", BYTES), ("out", BYTES)),
    "sbox_watch": (
        RECORD,
        S,
        ("shares", BYTES),
        ("random", BYTES),
        ("list", LIST),
        ("values", BYTES),
    ),
    "block": (
        RECORD,
        S,
        ("key_shares", BYTES),
        ("block_shares", BYTES),
        ("random", BYTES),
        ("out", BYTES),
    ),
    "block_watch": (
        RECORD,
        S,
        ("key_shares", BYTES),
        ("block_shares", BYTES),
        ("random", BYTES),
        ("list", LIST),
        ("values", BYTES),
    ),
    "open": (
        RECORD,
        ("inverse_record", BYTES),
        S,
        ("key_shares", BYTES),
        ("block_shares", BYTES),
        ("random", BYTES),
        ("out", BYTES),
    ),
    "open_watch": (
        RECORD,
        ("inverse_record", BYTES),
        S,
        ("key_shares", BYTES),
        ("block_shares", BYTES),
        ("random", BYTES),
        ("list", LIST),
        ("values", BYTES),
    ),
    "encrypt": UNSHARED,
    "decrypt": UNSHARED,
    "aes_block": (
        S,
        ("key_shares", BYTES),
        ("block_shares", BYTES),
        ("random", BYTES),
        ("out", BYTES),
    ),
    "aes_block_watch": (
        S,
        ("key_shares", BYTES),
        ("block_shares", BYTES),
        ("random", BYTES),
        ("list", LIST),
        ("values", BYTES),
    ),
    "split": (("value", BYTES), S, ("masks", BYTES), ("out", BYTES)),
    "join": (("shares", BYTES), S, ("out", BYTES)),
}

# A case file has fewer bytes.
LONGEST_FILE = 393215

LENT_FOR_WRITING = ("work", "record_out", "out", "values")

NAMES = tuple(PARAMETERS)


def output_kinds(name):
    return [kind for field, kind in PARAMETERS[name] if field in LENT_FOR_WRITING]


# ------------------------------------------------------------------- encoding


def number(value):
    return struct.pack(">I", value)


def encode(kind, value):
    if kind == NUMBER:
        return number(value)
    if kind == LIST:
        return b"".join(number(entry) for entry in value)
    if kind == FILLED:
        fill = value[0] if value else 0
        if value != bytes([fill]) * len(value):
            raise ValueError("a slice filled with more than one byte")
        return bytes([fill]) + number(len(value))
    return bytes(value)


def encode_answer(answer):
    words = (answer.number, *answer.values)
    return struct.pack(">4Q", *words, *[0] * (4 - len(words)))


def field(content):
    return number(len(content)) + content


def encode_case(name, inputs):
    """Runs the operation and puts down inputs, answer and outputs."""
    answer = OPERATIONS[name](*inputs)
    kinds = [kind for _, kind in PARAMETERS[name]]
    contents = [encode(kind, value) for kind, value in zip(kinds, inputs, strict=True)]
    contents.append(encode_answer(answer))
    outputs = zip(output_kinds(name), answer.outputs, strict=True)
    contents += [encode(kind, value) for kind, value in outputs]
    return b"".join(field(content) for content in contents)


def encode_file(name, all_inputs):
    # A case met twice is kept once.
    cases = list(dict.fromkeys(encode_case(name, inputs) for inputs in all_inputs))
    data = number(len(cases)) + b"".join(cases)
    if len(data) >= LONGEST_FILE:
        raise ValueError(f"{name}.cases has {len(data)} bytes")
    return data


# ------------------------------------------------------------------- decoding


def decode(kind, content):
    if kind == NUMBER:
        return struct.unpack(">I", content)[0]
    if kind == LIST:
        return [entry for (entry,) in struct.iter_unpack(">I", content)]
    if kind == FILLED:
        fill, length = struct.unpack(">BI", content)
        return bytes([fill]) * length
    return content


def decode_file(name, data):
    """Yields inputs, the four words of the answer, and the outputs of each case."""
    place = 4

    def next_field():
        nonlocal place
        (length,) = struct.unpack_from(">I", data, place)
        place += 4 + length
        return data[place - length : place]

    for _ in range(struct.unpack_from(">I", data)[0]):
        inputs = [decode(kind, next_field()) for _, kind in PARAMETERS[name]]
        words = struct.unpack(">4Q", next_field())
        outputs = [decode(kind, next_field()) for kind in output_kinds(name)]
        yield inputs, words, outputs
    if place != len(data):
        raise ValueError("bytes left over after the last case")
