"""The words that a number gives: the key stream of ChaCha20 (RFC 8439), in words of 32 bits.

The key is the number in 8 bytes, the greatest first, and 24 bytes that are all alike behind them; the nonce is zero, and the
first block has the number 0. Word k stands in block k / 16, at place k mod 16.
"""
import functools
import struct

DOUBLE_ROUNDS = 10
PLACES = ((0, 4, 8, 12), (1, 5, 9, 13), (2, 6, 10, 14), (3, 7, 11, 15),
          (0, 5, 10, 15), (1, 6, 11, 12), (2, 7, 8, 13), (3, 4, 9, 14))


def quarter(s, a, b, c, d):
    for x, y, z, n in ((a, b, d, 16), (c, d, b, 12), (a, b, d, 8), (c, d, b, 7)):
        s[x] = (s[x] + s[y]) & 0xFFFFFFFF
        mixed = s[z] ^ s[x]
        s[z] = ((mixed << n) | (mixed >> (32 - n))) & 0xFFFFFFFF


@functools.lru_cache(None)
def block(number, filler, place):
    """The sixteen words of a block."""
    key = struct.unpack("<8I", struct.pack(">Q", number) + bytes([filler]) * 24)
    start = [0x61707865, 0x3320646E, 0x79622D32, 0x6B206574, *key, place, 0, 0, 0]
    state = start[:]
    for _ in range(DOUBLE_ROUNDS):
        for at in PLACES:
            quarter(state, *at)
    return [(a + b) & 0xFFFFFFFF for a, b in zip(state, start)]


def word(number, k, filler=0):
    return block(number, filler, k // 16)[k % 16]
