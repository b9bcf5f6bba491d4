"""Keccak-256 in Python, written from the Keccak specification: every number is made by its rule.

Used by make_vectors to compute expected digests. The round constants, the rotation offsets and the
steps are not taken from the Rattle code or its definitions.
"""

WORD = 64
MASK = (1 << WORD) - 1


def rot(word, places):
    places %= WORD
    return ((word << places) | (word >> (WORD - places))) & MASK


def rc_bit(t):
    """Bit t of the output of the register x^8 + x^6 + x^5 + x^4 + 1, as a list of bits."""
    register = [1, 0, 0, 0, 0, 0, 0, 0]
    for _ in range(t % 255):
        register = [0] + register
        for place in (0, 4, 5, 6):
            register[place] ^= register[8]
        register = register[:8]
    return register[0]


def round_constant(index):
    return sum(rc_bit(j + 7 * index) << (2**j - 1) for j in range(7))


def offsets():
    table = {(0, 0): 0}
    x, y = 1, 0
    for t in range(24):
        table[x, y] = (t + 1) * (t + 2) // 2 % WORD
        x, y = y, (2 * x + 3 * y) % 5
    return table


ROUND_CONSTANTS = [round_constant(index) for index in range(24)]
OFFSETS = offsets()
LANES = [(x, y) for y in range(5) for x in range(5)]


def permute(a):
    """Keccak-f[1600] on a dictionary from (x, y) to lanes."""
    for constant in ROUND_CONSTANTS:
        parity = [a[x, 0] ^ a[x, 1] ^ a[x, 2] ^ a[x, 3] ^ a[x, 4] for x in range(5)]
        a = {(x, y): a[x, y] ^ parity[(x - 1) % 5] ^ rot(parity[(x + 1) % 5], 1) for x, y in LANES}
        a = {(x, y): rot(a[x, y], OFFSETS[x, y]) for x, y in LANES}
        a = {(y, (2 * x + 3 * y) % 5): a[x, y] for x, y in LANES}
        a = {(x, y): a[x, y] ^ (a[(x + 1) % 5, y] ^ MASK) & a[(x + 2) % 5, y] for x, y in LANES}
        a[0, 0] ^= constant
    return a


def sponge256(first, message):
    """The sponge with 136-byte blocks and 32 bytes of result; `first` is the first byte of the padding."""
    missing = 136 - len(message) % 136
    padding = bytearray(missing)
    padding[0] ^= first
    padding[-1] ^= 0x80
    message = bytes(message) + padding
    a = {lane: 0 for lane in LANES}
    for start in range(0, len(message), 136):
        for place in range(17):
            at = start + 8 * place
            a[LANES[place]] ^= int.from_bytes(message[at : at + 8], "little")
        a = permute(a)
    return b"".join(a[LANES[place]].to_bytes(8, "little") for place in range(4))


def keccak256(message):
    return sponge256(0x01, message)
