"""The decomposition at equal widths, found over field elements.

A second opinion for the selftest: with m = n the paper's first way, whose unknowns
are whole coefficients, has to give the same p as the one over single bits.
"""

from decomposition import cut
from field import POWER, PRODUCT, evaluate, inverse


def columns(width, basis):
    """For each unknown, in order, the factor it has at each of the 2^n inputs."""
    inputs = range(2**width)
    for q in cut(width, basis) + [None]:  # pt stands alone: its factor is 1
        factors = [1 if q is None else evaluate(width, q, x) for x in inputs]
        for powers in POWER[width]:
            yield [PRODUCT[width][factors[x]][powers[x]] for x in inputs]


def add_multiple(width, vector, factor, other):
    row = PRODUCT[width][factor]
    return [v ^ row[o] for v, o in zip(vector, other)]


def reduce(width, vector, combination, kept):
    """As in decomposition.py, with multiples of the kept vectors."""
    for lead, kept_vector, kept_combination in kept:
        factor = vector[lead]
        if factor:
            vector = add_multiple(width, vector, factor, kept_vector)
            combination = add_multiple(width, combination, factor, kept_combination)
    return vector, combination


def solve(width, table, basis):
    """All p, one after another, or None if no p meets the table."""
    all_columns = list(columns(width, basis))
    none = [0] * len(all_columns)
    kept = []
    for unknown, column in enumerate(all_columns):
        alone = none.copy()
        alone[unknown] = 1
        vector, combination = reduce(width, column, alone, kept)
        if any(vector):
            lead = next(x for x, v in enumerate(vector) if v)
            scale = PRODUCT[width][inverse(width, vector[lead])]
            kept.append((lead, [scale[v] for v in vector], [scale[c] for c in combination]))
    rest, answer = reduce(width, list(table), none, kept)
    return None if any(rest) else bytes(answer)
