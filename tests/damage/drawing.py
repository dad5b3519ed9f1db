"""Numbers of a fixed sequence: xorshift64*, so that each run on each machine tries the same inputs."""

ALL_BITS = (1 << 64) - 1
SEED = 0x38C0FFEE


class Drawn:
    """The numbers of one input, which has its own sequence, whichever others are tried."""

    def __init__(self, subject, number):
        at = SEED
        for part in [*subject.encode(), number]:
            at = (at ^ part) * 0x9E3779B97F4A7C15 + 0x632BE59BD9B4E019 & ALL_BITS
        self.at = at or 1

    def number(self):
        """64 bits."""
        at = self.at
        at ^= at >> 12
        at ^= at << 25 & ALL_BITS
        at ^= at >> 27
        self.at = at
        return at * 0x2545F4914F6CDD1D & ALL_BITS

    def below(self, end):
        return (self.number() >> 32) % end

    def among(self, least, most):
        return least + self.below(most - least + 1)

    def happens(self, times, of):
        """True so many times of these."""
        return self.below(of) < times

    def one_of(self, things):
        return things[self.below(len(things))]

    def some_bytes(self, count):
        return bytes(self.below(256) for _ in range(count))
