"""Numbers by lot, the same on every machine, for the case scripts in this folder."""


class Lot:
    def __init__(self, seed):
        self.state = seed

    def below(self, n):
        self.state = (6364136223846793005 * self.state + 1442695040888963407) % 2**64
        return (self.state >> 24) % n

    def of(self, things):
        return things[self.below(len(things))]

    def to(self, most):
        """0 to most: an end or next to one, or anything between."""
        return min(
            self.of((0, 1, most, max(most - 1, 0), self.below(most + 1), self.below(most + 1))),
            most,
        )
