"""The coins that are dealt before a run.

The coin of an epoch, a lane and a round uses f + 1 + 4 n words of the seed, from place ((epoch n + lane) rounds + round) times
that number on. The low bytes of the first f + 1 are the coefficients of a polynomial, the lowest first; the next four words for
each node are its salt, each with its least byte first. The share of node m is the value at m + 1; its leaf is the share and the
salt; the root of the tree over all leaves is published; the coin is the lowest bit of the value at 0.
"""
import functools
import struct

import codes
import trees
import words


class Deal:
    """The coins of a run."""

    def __init__(self, seed, n, f, epochs, rounds):
        self.seed, self.n, self.f, self.epochs, self.rounds = seed, n, f, epochs, rounds

    def first(self, epoch, lane, at):
        return ((epoch * self.n + lane) * self.rounds + at) * (self.f + 1 + 4 * self.n)

    def coefficients(self, epoch, lane, at):
        first = self.first(epoch, lane, at)
        return [words.word(self.seed, first + k) & 255 for k in range(self.f + 1)]

    def coin(self, epoch, lane, at):
        return self.coefficients(epoch, lane, at)[0] & 1

    def share(self, epoch, lane, at, m):
        return codes.evaluate(self.coefficients(epoch, lane, at), m + 1)

    def salt(self, epoch, lane, at, m):
        first = self.first(epoch, lane, at) + self.f + 1 + 4 * m
        return struct.pack("<4I", *(words.word(self.seed, first + k) for k in range(4)))

    @functools.lru_cache(None)
    def leaves(self, epoch, lane, at):
        return [bytes([self.share(epoch, lane, at, m)]) + self.salt(epoch, lane, at, m) for m in range(self.n)]

    def root(self, epoch, lane, at):
        return trees.root_of(self.leaves(epoch, lane, at))

    def branch(self, epoch, lane, at, m):
        return trees.branch_of(self.leaves(epoch, lane, at), m)
