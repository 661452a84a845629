"""Numbers that are drawn: PCG XSH RR 64/32, as rand_pcg's Pcg32 draws them."""

MASK = 2**64 - 1


class Draws:
    def __init__(self, state, stream):
        self.increment = (stream << 1 | 1) & MASK
        self.state = (state + self.increment) & MASK
        self.step()

    def step(self):
        self.state = (self.state * 6364136223846793005 + self.increment) & MASK

    def word(self):
        state, turn = self.state, self.state >> 59
        self.step()
        word = ((state >> 18 ^ state) >> 27) & 0xFFFFFFFF
        return (word >> turn | word << (-turn & 31)) & 0xFFFFFFFF

    def below(self, bound):
        return self.word() % bound

    def one_of(self, items):
        return items[self.below(len(items))]
