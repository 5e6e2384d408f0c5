"""What an operation hands back, and the tests that several operations share.

A test returns None if it is passed, else the refusal (number, place). So a
chain of tests joined by `or` runs in the order written and stops at the first
refusal; later tests may rely on what earlier ones established.
"""

from collections import namedtuple

DONE = 0
WRONG_WIDTH = 1
WRONG_LENGTH = 2
TOO_LARGE = 3
NO_FIT = 4
WRONG_MARK = 5
OTHER_TABLE = 6
WRONG_SHARE_COUNT = 7
NO_SUCH_STEP = 8
WRONG_BITS = 9

# number: 0 for done, else the number of the refusal.
# values: the place of a refusal, or what a call that is done hands back.
# outputs: the content of each slice lent for writing, after the call.
Answer = namedtuple("Answer", "number values outputs")


def done(values=(), outputs=()):
    return Answer(DONE, tuple(values), tuple(bytes(o) for o in outputs))


def refused(refusal, outputs=()):
    """A refusal leaves every output as it was."""
    number, place = refusal
    return Answer(number, (place,), tuple(bytes(o) for o in outputs))


def lengths_differ(*pairs):
    """Pairs of a slice and the length it must have. The place of a 2 is 0."""
    if any(len(given) != length for given, length in pairs):
        return (WRONG_LENGTH, 0)
    return None


def too_large(*pairs):
    """Pairs of a slice and the limit that its entries must be below. The place is
    counted through the slices in the order given."""
    place = 0
    for entries, limit in pairs:
        for entry in entries:
            if entry >= limit:
                return (TOO_LARGE, place)
            place += 1
    return None


def share_count_wrong(s):
    if not 1 <= s <= 9:
        return (WRONG_SHARE_COUNT, 0)
    return None
