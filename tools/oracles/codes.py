"""The field of 256 elements and the erasure code over it, from their definitions.

A byte is a polynomial over bits, bit i the coefficient of x^i; a sum is an exclusive or; a product is taken modulo
x^8 + x^4 + x^3 + x^2 + 1. A frame is the length of the value in 4 bytes, the value, and the fewest zero bytes that make its
length a multiple of k. The first k shards are the k equal pieces of the frame; in each place the bytes of all n shards are the
values, at 0 to n - 1, of the one polynomial of a degree below k through the first k of them.
"""
import functools

MODULUS = 0x11D
LONGEST_VALUE = 16_514


@functools.lru_cache(None)
def times(a, b):
    product = 0
    while b:
        if b & 1:
            product ^= a
        a = a << 1 ^ (MODULUS if a & 128 else 0)
        b >>= 1
    return product


@functools.lru_cache(None)
def inverse(a):
    return next(b for b in range(1, 256) if times(a, b) == 1)


def weights(points, at):
    """How often each point's value counts in the value at another: Lagrange's formula."""
    found = []
    for p in points:
        weight = 1
        for q in points:
            if q != p:
                weight = times(weight, times(at ^ q, inverse(p ^ q)))
        found.append(weight)
    return found


def value_at(points, values, at):
    """The value at a place of the polynomial of least degree that has these values at these points."""
    total = 0
    for weight, value in zip(weights(points, at), values):
        total ^= times(weight, value)
    return total


def coefficients_through(points, values):
    """The coefficients, the lowest first, of the polynomial of least degree that has these values at these points."""
    total = [0] * len(points)
    for p, value in zip(points, values):
        basis = [value]
        for q in points:
            if q != p:
                scale = inverse(p ^ q)
                shifted = [0] + [times(c, scale) for c in basis]
                fixed = [times(c, times(q, scale)) for c in basis] + [0]
                basis = [a ^ b for a, b in zip(shifted, fixed)]
        total = [a ^ b for a, b in zip(total, basis)]
    return total


def evaluate(coefficients, at):
    total, power = 0, 1
    for c in coefficients:
        total ^= times(c, power)
        power = times(power, at)
    return total


@functools.lru_cache(None)
def table(weight):
    return bytes(times(weight, b) for b in range(256))


def combined(shards, factors):
    """The sum of shards of one length, each times its factor."""
    total = 0
    for shard, factor in zip(shards, factors):
        total ^= int.from_bytes(shard.translate(table(factor)), "big")
    return total.to_bytes(len(shards[0]), "big")


def codeword(n, points, shards):
    """All n shards of the codeword of which these stand at these points."""
    known = dict(zip(points, shards))
    return [known.get(m) or combined(shards, weights(points, m)) for m in range(n)]


def encode(n, k, value):
    frame = len(value).to_bytes(4, "big") + value
    frame += bytes(-len(frame) % k)
    size = len(frame) // k
    return codeword(n, range(k), [frame[i * size:(i + 1) * size] for i in range(k)])


def value_of(k, shards):
    """The value of a codeword, which is empty where the first k shards are no frame."""
    frame = b"".join(shards[:k])
    length = int.from_bytes(frame[:4], "big")
    rest = frame[4:]
    is_frame = len(frame) >= 4 and length <= min(LONGEST_VALUE, len(rest))
    if not is_frame or any(rest[length:]) or len(rest) - length >= k:
        return b""
    return rest[:length]


def fnv32(data, start=0x811C9DC5):
    """FNV-1a of 32 bits, which goes on from a hash."""
    total = start
    for byte in data:
        total = (total ^ byte) * 16_777_619 & 0xFFFFFFFF
    return total


def fnv64(data, start=0xCBF29CE484222325):
    """FNV-1a of 64 bits, which goes on from a hash."""
    total = start
    for byte in data:
        total = (total ^ byte) * 0x100000001B3 & 0xFFFFFFFFFFFFFFFF
    return total
