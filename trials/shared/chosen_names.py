"""Names of drafts that are chosen against a hash table with a fixed seed, so that they come to few places of it: whoever knows the seed can
choose such names, and a plan's cost must not grow by them. A draft's name is its client's name and a number; the hash is that of the
toolchain's `FoldHasher` and `HashMap`."""

INITIAL, MULTIPLIER, LOW = 0x243F_6A88_85A3_08D3, 0x9E37_79B9_7F4A_7C15, 2 ** 64 - 1
# A table has a power of 2 of places, for at most 9 names a place. The names that are chosen come to the first 64th of them.
NAMES_OF_A_PLACE, SHARE = 9, 64


def folded(state, word, length):
    """The state of the hash after a write of at most 8 bytes, which are read as this word."""
    product = (state ^ word) * (MULTIPLIER ^ 2 * length)
    return product & LOW ^ product >> 64


def state_of(desk):
    """The state of the hash after a client's name: its length is written as 8 bytes, and then each of its bytes alone."""
    state = folded(INITIAL, len(desk), 8)
    for byte in desk.encode():
        state = folded(state, byte | byte << 8 | byte << 16, 1)
    return state


def places_for(count):
    """How many places a table for this many names has."""
    places = 1
    while NAMES_OF_A_PLACE * places < count:
        places *= 2
    return places


def chosen(desk, count):
    """This many numbers of a client's drafts, in rising order, that all come to the first 64th of the places of a table for them, or to its first
    place."""
    state, multiplier, places = state_of(desk), MULTIPLIER ^ 8, places_for(count)
    mask, most = places - 1, max(1, places // SHARE)
    numbers, number = [], 0
    while len(numbers) < count:
        number += 1
        product = (state ^ number * (2 ** 32 + 1)) * multiplier
        hash = product & LOW ^ product >> 64
        if (hash ^ hash >> 32) & mask < most:
            numbers.append(number)
    return numbers
