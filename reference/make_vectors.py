#!/usr/bin/env python3
"""Writes the stored input of the program `vectors`, one vector a line.

    python3 reference/make_vectors.py > crates/vectors/stdin

The standards' worked examples are written out here as they are printed there. Cells made by other implementations are
read from crates/cells/data/. The rest is made by reference/suites.py, whose hashes are first compared with Python's own.
"""

import hashlib
import os
import random
import sys

import suites as s

CELLS = os.path.join(os.path.dirname(os.path.abspath(__file__)), "..", "crates", "cells", "data")

# FIPS 197, appendices B and C, and SP 800-38A, F.1 (the keys of FIPS 197, appendices A.1 and A.3)
AES = """
000102030405060708090a0b0c0d0e0f 00112233445566778899aabbccddeeff 69c4e0d86a7b0430d8cdb78070b4c55a
000102030405060708090a0b0c0d0e0f101112131415161718191a1b1c1d1e1f 00112233445566778899aabbccddeeff 8ea2b7ca516745bfeafc49904b496089
2b7e151628aed2a6abf7158809cf4f3c 3243f6a8885a308d313198a2e0370734 3925841d02dc09fbdc118597196a0b32
2b7e151628aed2a6abf7158809cf4f3c 6bc1bee22e409f96e93d7e117393172a 3ad77bb40d7a3660a89ecaf32466ef97
2b7e151628aed2a6abf7158809cf4f3c ae2d8a571e03ac9c9eb76fac45af8e51 f5d3d58503b9699de785895a96fdbaaf
2b7e151628aed2a6abf7158809cf4f3c 30c81c46a35ce411e5fbc1191a0a52ef 43b1cd7f598ece23881b00e3ed030688
2b7e151628aed2a6abf7158809cf4f3c f69f2445df4f9b17ad2b417be66c3710 7b0c785e27e8ad3f8223207104725dd4
603deb1015ca71be2b73aef0857d77811f352c073b6108d72d9810a30914dff4 6bc1bee22e409f96e93d7e117393172a f3eed1bdb5d2a03c064b5a7e3db181f8
603deb1015ca71be2b73aef0857d77811f352c073b6108d72d9810a30914dff4 ae2d8a571e03ac9c9eb76fac45af8e51 591ccb10d410ed26dc5ba74a31362870
603deb1015ca71be2b73aef0857d77811f352c073b6108d72d9810a30914dff4 30c81c46a35ce411e5fbc1191a0a52ef b6ed21b99ca6f4f9f153e7b1beafed1d
603deb1015ca71be2b73aef0857d77811f352c073b6108d72d9810a30914dff4 f69f2445df4f9b17ad2b417be66c3710 23304b7a39f9f3ff067d8d8f9e24ecc7
""".split("\n")[1:-1]

# FIPS 180 and FIPS 202, worked examples
SHA1 = [
    (b"", "da39a3ee5e6b4b0d3255bfef95601890afd80709"),
    (b"abc", "a9993e364706816aba3e25717850c26c9cd0d89d"),
    (b"abcdbcdecdefdefgefghfghighijhijkijkljklmklmnlmnomnopnopq", "84983e441c3bd26ebaae4aa1f95129e5e54670f1"),
]
SHA3 = [
    (b"", "a7ffc6f8bf1ed76651c14756a061d662f580ff4de43b49fa82d80a4b80f8434a"),
    (b"abc", "3a985da74fe225b2045c172d6bd390bd855f086e3e9d525b46bfe24511431532"),
    (b"\xa3" * 200, "79f38adec5c20307a98ef76e8324afbfd46cfd81b22e3973c65fa1bd9de31787"),
]


def emit(kind, **fields):
    print(kind, *("%s=%s" % (k.rstrip("_"), v if isinstance(v, (int, str)) else v.hex()) for k, v in fields.items()))


def hashes(rng):
    for message, digest in SHA1:
        assert hashlib.sha1(message).hexdigest() == digest
        emit("sha1", in_=message, out=digest)
    for message, digest in SHA3:
        assert hashlib.sha3_256(message).hexdigest() == digest
        emit("sha3", in_=message, out=digest)
    for name, ours, theirs, lengths in (
        ("sha1", s.sha1, hashlib.sha1, (1, 54, 55, 56, 57, 63, 64, 65, 119, 120, 127, 128, 509, 4096)),
        ("sha3", s.sha3, hashlib.sha3_256, (1, 134, 135, 136, 137, 271, 272, 273, 509, 4096)),
    ):
        for length in lengths:
            message = rng.randbytes(length)
            digest = ours(message)
            assert digest == theirs(message).digest()
            emit(name, in_=message, out=digest)


def layers(rng):
    for size in (16, 32):
        key = rng.randbytes(size)
        for n in (0, 1, 2, 15, 16, 17, 33, 65535, 2**24 - 1, 2**27 - 1):
            payload = rng.randbytes(s.PAYLOAD)
            emit("ctr", key=key, layer=n, in_=payload, out=s.CounterMode(key).add(n, payload))
    for _ in range(2):
        key, payload = rng.randbytes(128), rng.randbytes(s.PAYLOAD)
        out = s.Lioness(key).add(0, payload)
        assert s.Lioness(key).remove(0, out) == payload
        emit("lioness", key=key, in_=payload, out=out)


def tags(rng):
    for suite in (1, 2, 3):
        seed = rng.randbytes(s.PARTS[suite][0])
        cells = [rng.randbytes(s.PAYLOAD) for _ in range(4)]
        for count in (1, 2, 4):
            out = s.HASH[suite](seed + b"".join(cells[:count]))[:4]
            emit("tag", suite=suite, seed=seed, cells=",".join(c.hex() for c in cells[:count]), out=out)


def fields(line):
    return dict(f.split("=", 1) for f in line.split(" "))


def cells(name):
    """Whole cells of three hops: layers as ctr or lioness vectors, each hop's tags as one tag vector.

    The files have the payload as it stands on some of its links; each of these is compared.
    """
    slips, taken, numbers = {}, {}, {}
    for line in open(os.path.join(CELLS, name)):
        if line.startswith("#"):
            continue
        f = fields(line.rstrip("\n"))
        suite = int(f["suite"])
        if "slip" in f:
            slips[suite, int(f["slip"])] = s.slip_parts(suite, bytes.fromhex(f["key"]))
            continue
        way, hop, plain = f["way"], int(f["hop"]), bytes.fromhex(f["plain"])
        tag = bytes.fromhex(f["digest20"])[:4]
        side = 0 if way == "f" else 1
        taken.setdefault((suite, way, hop), ([], []))
        taken[suite, way, hop][0].append(plain)
        taken[suite, way, hop][1].append(tag)
        inner = plain[:5] + tag + plain[9:]
        for j in range(hop, 0, -1):
            key = slips[suite, j][2 + side]
            n = numbers.get((suite, way, j), 0)
            numbers[suite, way, j] = n + 1
            outer = s.CIPHER[suite](key).add(n, inner)
            given = f.get("link%d" % j)
            assert given is None or bytes.fromhex(given) == outer, line[:60]
            if given is not None and n < 6:
                if suite == 3:
                    emit("lioness", key=key, in_=inner, out=outer)
                else:
                    emit("ctr", key=key, layer=n, in_=inner, out=outer)
            inner = outer
    for (suite, way, hop), (plains, found) in sorted(taken.items()):
        seed = slips[suite, hop][0 if way == "f" else 1]
        emit("tag", suite=suite, seed=seed, cells=",".join(p.hex() for p in plains), out=found[-1])


def main():
    rng = random.Random(20261117)
    for line in AES:
        key, block, out = line.split(" ")
        assert s.encipher(s.expand(bytes.fromhex(key)), bytes.fromhex(block)).hex() == out
        emit("aes", key=key, in_=block, out=out)
    hashes(rng)
    layers(rng)
    tags(rng)
    cells("cells-by-tor.txt")
    cells("cells-lioness.txt")
    print("%d S-box entries, all cells opened alike" % len(s.SBOX), file=sys.stderr)


if __name__ == "__main__":
    main()
