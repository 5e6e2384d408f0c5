"""Writes the case files, or checks that the stored ones are up to date.

    python3 generate.py --write DIR
    python3 generate.py --check DIR
"""

import os
import sys

from casefile import NAMES, encode_file
from cases import INPUTS


def path_of(folder, name):
    return os.path.join(folder, name + ".cases")


def write(folder):
    os.makedirs(folder, exist_ok=True)
    for name in NAMES:
        data = encode_file(name, INPUTS[name]())
        with open(path_of(folder, name), "wb") as file:
            file.write(data)
        count = int.from_bytes(data[:4], "big")
        print(f"{name}.cases: {count} cases, {len(data)} bytes")
    return 0


def trouble(path, expected):
    """What is wrong with a stored file, or None."""
    try:
        with open(path, "rb") as file:
            stored = file.read()
    except OSError as error:
        return f"cannot be read: {error.strerror}"
    if stored == expected:
        return None
    pairs = enumerate(zip(stored, expected))
    place = next((k for k, (a, b) in pairs if a != b), min(len(stored), len(expected)))
    return (
        f"is not what the generator gives: {len(stored)} bytes stored,"
        f" {len(expected)} expected, first difference at byte {place}"
    )


def check(folder):
    wrong = 0
    for name in NAMES:
        path = path_of(folder, name)
        problem = trouble(path, encode_file(name, INPUTS[name]()))
        if problem:
            print(f"{path} {problem}", file=sys.stderr)
            wrong += 1
    if wrong:
        print(f"{wrong} of {len(NAMES)} case files are wrong", file=sys.stderr)
        return 1
    print(f"all {len(NAMES)} case files are what the generator gives")
    return 0


def main(arguments):
    if len(arguments) == 2 and arguments[0] == "--write":
        return write(arguments[1])
    if len(arguments) == 2 and arguments[0] == "--check":
        return check(arguments[1])
    print(__doc__.strip(), file=sys.stderr)
    return 2


if __name__ == "__main__":
    sys.exit(main(sys.argv[1:]))
