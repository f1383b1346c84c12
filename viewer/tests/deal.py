"""The coins that are dealt before a run, by the stream of ChaCha20 (RFC 8439) with the seed in its key."""
import struct

# the words of each quarter round: four columns, four diagonals
QUARTERS = [
    (0, 4, 8, 12), (1, 5, 9, 13), (2, 6, 10, 14), (3, 7, 11, 15), (0, 5, 10, 15), (1, 6, 11, 12), (2, 7, 8, 13), (3, 4, 9, 14),
]


def rotate(word, by):
    """A word of 32 bits turned to the left."""
    return ((word << by) | (word >> (32 - by))) & 0xFFFFFFFF


def quarter(words, a, b, c, d):
    """A quarter round."""
    for x, y, z, by in ((a, b, d, 16), (c, d, b, 12), (a, b, d, 8), (c, d, b, 7)):
        words[x] = (words[x] + words[y]) & 0xFFFFFFFF
        words[z] = rotate(words[z] ^ words[x], by)


def word(seed, place):
    """A word of the stream."""
    key = struct.unpack("<8I", struct.pack(">Q", seed) + bytes(24))
    start = [0x61707865, 0x3320646E, 0x79622D32, 0x6B206574, *key, place // 16, 0, 0, 0]
    words = start[:]
    for _ in range(10):
        for at in QUARTERS:
            quarter(words, *at)
    return (words[place % 16] + start[place % 16]) & 0xFFFFFFFF


def coin(trace, epoch, lane, round_number):
    """The coin of a round: the lowest bit of the first coefficient, which is the value at 0."""
    size = trace.faulty + 1 + 4 * trace.nodes
    return word(trace.seed, ((epoch * trace.nodes + lane) * trace.rounds + round_number) * size) & 1
