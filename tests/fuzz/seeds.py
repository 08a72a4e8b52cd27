"""Says which choices a seed draws, by the published definition of the generator (PCG XSH RR 64/32, seeded from 64
bits as rand_core does).
"""
MULTIPLIER = 6364136223846793005
EXPANSION = 11634580027462260723
WORD, LONG = 2 ** 32 - 1, 2 ** 64 - 1


def output_of(state):
    """Returns the 32 bits that a state of the generator gives."""
    word = ((state >> 18) ^ state) >> 27 & WORD
    turn = state >> 59
    return (word >> turn | word << (-turn & 31)) & WORD


def words(seed):
    """Yields the words of a seed."""
    parts = []
    for _ in range(4):
        seed = (seed * MULTIPLIER + EXPANSION) & LONG
        parts.append(output_of(seed))
    increment = (parts[2] | parts[3] << 32) | 1
    state = ((parts[0] | parts[1] << 32) + increment) * MULTIPLIER + increment & LONG
    while True:
        yield output_of(state)
        state = (state * MULTIPLIER + increment) & LONG


def drawn(seed, chance, count):
    """Returns the first choices of a seed, if each is asked for at the same chance."""
    found = words(seed)
    return "".join("1" if next(found) * 100 >> 32 < chance else "0" for _ in range(count))
