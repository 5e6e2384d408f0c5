"""The fields of 16, 64 and 256 elements, the exponent lists, polynomials.

An element is a number below 2^n, bit i the coefficient of y^i.
"""

# y^4 + y + 1, y^6 + y + 1, y^8 + y^4 + y^3 + y + 1
MODULUS = {4: 0b10011, 6: 0b1000011, 8: 0b100011011}

EXPONENTS = {
    4: (0, 1, 2, 4, 8, 3, 6, 12, 9),
    6: (0, 1, 2, 4, 8, 16, 32, 3, 6, 12, 24, 48, 33, 11, 22, 44, 25, 50, 37),
}


def product(width, a, b):
    """Schoolbook product of the two polynomials in y, then long division."""
    terms = [0] * (2 * width - 1)
    for i in range(width):
        for j in range(width):
            terms[i + j] ^= (a >> i & 1) & (b >> j & 1)
    for top in range(2 * width - 2, width - 1, -1):
        if terms[top]:
            for i in range(width + 1):
                terms[top - width + i] ^= MODULUS[width] >> i & 1
    return sum(terms[i] << i for i in range(width))


def power(width, x, exponent):
    """Exponent 0 gives 1, at element 0 too."""
    result = 1
    for _ in range(exponent):
        result = product(width, result, x)
    return result


# The same two functions as tables, only to save time:
# PRODUCT[n][a][b] and POWER[n][k][x], k the place in the exponent list.
PRODUCT = {
    n: [[product(n, a, b) for b in range(2**n)] for a in range(2**n)] for n in MODULUS
}
POWER = {
    n: [[power(n, x, e) for x in range(2**n)] for e in EXPONENTS[n]] for n in EXPONENTS
}


def inverse(width, a):
    """The element whose product with a (not 0) is 1."""
    return PRODUCT[width][a].index(1)


def evaluate(width, coefficients, x):
    """A polynomial has one coefficient for each listed exponent."""
    total = 0
    for coefficient, powers in zip(coefficients, POWER[width], strict=True):
        total ^= PRODUCT[width][coefficient][powers[x]]
    return total
