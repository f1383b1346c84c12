"""Merkle trees over n leaves, and branches.

The digest of leaf m is SHA-256 of the byte 0, the byte m and the leaf; behind the last leaf, up to the next power of two, a
digest is 32 zero bytes; a digest above two others is SHA-256 of the byte 1, the left one and the right one. A branch is the
siblings from the bottom up.
"""
import hashlib


def height(n):
    return (n - 1).bit_length()


def digest(*parts):
    return hashlib.sha256(b"".join(parts)).digest()


def leaf_digest(m, leaf):
    return digest(b"\0", bytes([m]), leaf)


def levels(leaves):
    """All levels of the tree, the digests of the leaves first."""
    row = [leaf_digest(m, leaf) for m, leaf in enumerate(leaves)]
    row += [bytes(32)] * (2 ** height(len(leaves)) - len(leaves))
    found = [row]
    while len(row) > 1:
        row = [digest(b"\1", row[i], row[i + 1]) for i in range(0, len(row), 2)]
        found.append(row)
    return found


def root_of(leaves):
    return levels(leaves)[-1][0]


def branch_of(leaves, m):
    return [row[m >> level ^ 1] for level, row in enumerate(levels(leaves)[:-1])]


def is_branch(root, n, m, leaf, branch):
    found = leaf_digest(m, leaf)
    for level, sibling in enumerate(branch):
        pair = (sibling, found) if m >> level & 1 else (found, sibling)
        found = digest(b"\1", *pair)
    return len(branch) == height(n) and found == root
