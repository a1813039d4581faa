"""Numbers that look drawn, the same for a seed on each machine."""


class Draw:
    """A linear congruential generator with Knuth's constants for 64 bits."""

    def __init__(self, seed):
        self.state = seed
        self.below(1)

    def below(self, bound):
        self.state = (self.state * 6364136223846793005 + 1442695040888963407) % 2**64
        return (self.state >> 33) % bound

    def of(self, *values):
        return values[self.below(len(values))]
