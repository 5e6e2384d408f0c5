"""splitmix64, so that the cases depend on no library's generator."""

MASK = 2**64 - 1


class Prng:
    def __init__(self, seed):
        self.state = seed & MASK

    def word(self):
        self.state = self.state + 0x9E3779B97F4A7C15 & MASK
        z = self.state
        z = (z ^ z >> 30) * 0xBF58476D1CE4E5B9 & MASK
        z = (z ^ z >> 27) * 0x94D049BB133111EB & MASK
        return z ^ z >> 31

    def below(self, limit):
        return self.word() % limit

    def pick(self, choices):
        return choices[self.below(len(choices))]

    def elements(self, limit, count):
        """count bytes, each below the limit."""
        return bytes(self.below(limit) for _ in range(count))

    def bytes(self, count):
        return self.elements(256, count)

    def pattern(self, count):
        """Bytes that are not 0, for outputs before a call."""
        return bytes(1 + self.below(255) for _ in range(count))
