"""The three suites once more, in another language and from the published standards alone.

Written for clearness, not for speed: it makes and checks test vectors, and nothing that is proved rests on it.
FIPS 197 (AES), FIPS 180-4 (SHA-1), FIPS 202 (SHA3-256); LIONESS as docs/suites.md states it.
"""

PAYLOAD = 509


def xor(a, b):
    assert len(a) == len(b)
    return bytes(x ^ y for x, y in zip(a, b))


# AES


def times(a, b):
    """The product of two bytes as polynomials modulo x^8 + x^4 + x^3 + x + 1."""
    product = 0
    while a:
        if a & 1:
            product ^= b
        a >>= 1
        b <<= 1
        if b & 0x100:
            b ^= 0x11B
    return product


def substitute(byte):
    inverse = next((c for c in range(1, 256) if times(byte, c) == 1), 0)
    rotated = [(inverse << n | inverse >> (8 - n)) & 0xFF for n in range(5)]
    result = 0x63
    for r in rotated:
        result ^= r
    return result


SBOX = [substitute(b) for b in range(256)]
TWO = [times(2, b) for b in range(256)]
THREE = [times(3, b) for b in range(256)]


def expand(key):
    """The round keys of a key of 16 or 32 bytes, each a list of 16 bytes."""
    nk = len(key) // 4
    words = [list(key[4 * i : 4 * i + 4]) for i in range(nk)]
    constant = 1
    for i in range(nk, 4 * (nk + 7)):
        t = list(words[i - 1])
        if i % nk == 0:
            t = [SBOX[b] for b in t[1:] + t[:1]]
            t[0] ^= constant
            constant = times(2, constant)
        elif nk == 8 and i % 8 == 4:
            t = [SBOX[b] for b in t]
        words.append([x ^ y for x, y in zip(words[i - nk], t)])
    return [sum(words[4 * r : 4 * r + 4], []) for r in range(nk + 7)]


def encipher(keys, block):
    state = [a ^ b for a, b in zip(block, keys[0])]
    for number, key in enumerate(keys[1:], 1):
        state = [SBOX[b] for b in state]
        state = [state[(i + 4 * (i % 4)) % 16] for i in range(16)]
        if number < len(keys) - 1:
            mixed = []
            for c in range(0, 16, 4):
                a, b, d, e = state[c : c + 4]
                mixed += [
                    TWO[a] ^ THREE[b] ^ d ^ e,
                    a ^ TWO[b] ^ THREE[d] ^ e,
                    a ^ b ^ TWO[d] ^ THREE[e],
                    THREE[a] ^ b ^ d ^ TWO[e],
                ]
            state = mixed
        state = [a ^ b for a, b in zip(state, key)]
    return bytes(state)


def key_stream(key, at, count):
    """Bytes at to at + count - 1 of the enciphered blocks 0, 1, 2, .. put one after another."""
    keys = expand(key)
    first, last = at // 16, (at + count - 1) // 16
    blocks = b"".join(encipher(keys, c.to_bytes(16, "big")) for c in range(first, last + 1))
    return blocks[at % 16 : at % 16 + count]


# SHA-1


def rotl(x, n, width):
    return (x << n | x >> (width - n)) & (1 << width) - 1


def sha1(message):
    bits = 8 * len(message) % 2**64
    message = message + b"\x80" + bytes((119 - len(message) % 64) % 64) + bits.to_bytes(8, "big")
    h = [0x67452301, 0xEFCDAB89, 0x98BADCFE, 0x10325476, 0xC3D2E1F0]
    for start in range(0, len(message), 64):
        w = [int.from_bytes(message[start + 4 * i : start + 4 * i + 4], "big") for i in range(16)]
        for t in range(16, 80):
            w.append(rotl(w[t - 3] ^ w[t - 8] ^ w[t - 14] ^ w[t - 16], 1, 32))
        a, b, c, d, e = h
        for t in range(80):
            if t < 20:
                f, k = b & c ^ ~b & d, 0x5A827999
            elif t < 40:
                f, k = b ^ c ^ d, 0x6ED9EBA1
            elif t < 60:
                f, k = b & c ^ b & d ^ c & d, 0x8F1BBCDC
            else:
                f, k = b ^ c ^ d, 0xCA62C1D6
            a, b, c, d, e = (rotl(a, 5, 32) + f + e + k + w[t]) % 2**32, a, rotl(b, 30, 32), c, d
        h = [(x + y) % 2**32 for x, y in zip(h, (a, b, c, d, e))]
    return b"".join(x.to_bytes(4, "big") for x in h)


# SHA3-256


def constant_bit(t):
    """The constant term of x^t modulo x^8 + x^6 + x^5 + x^4 + 1."""
    r = 1
    for _ in range(t % 255):
        r <<= 1
        if r & 0x100:
            r ^= 0x171
    return r & 1


ROUND_CONSTANTS = [sum(constant_bit(7 * i + j) << 2**j - 1 for j in range(7)) for i in range(24)]


def rotations():
    r = {(0, 0): 0}
    x, y = 1, 0
    for t in range(24):
        r[x, y] = (t + 1) * (t + 2) // 2 % 64
        x, y = y, (2 * x + 3 * y) % 5
    return r


ROTATIONS = rotations()


def keccak(a):
    for constant in ROUND_CONSTANTS:
        c = [a[x] ^ a[x + 5] ^ a[x + 10] ^ a[x + 15] ^ a[x + 20] for x in range(5)]
        a = [a[i] ^ c[(i - 1) % 5] ^ rotl(c[(i + 1) % 5], 1, 64) for i in range(25)]
        b = [0] * 25
        for (x, y), r in ROTATIONS.items():
            b[y + 5 * ((2 * x + 3 * y) % 5)] = rotl(a[x + 5 * y], r, 64)
        a = [b[i] ^ ~b[i // 5 * 5 + (i + 1) % 5] & b[i // 5 * 5 + (i + 2) % 5] for i in range(25)]
        a[0] ^= constant
    return a


def sha3(message):
    padded = bytearray(message + b"\x06" + bytes(135 - len(message) % 136))
    padded[-1] ^= 0x80
    a = [0] * 25
    for start in range(0, len(padded), 136):
        for i in range(17):
            a[i] ^= int.from_bytes(padded[start + 8 * i : start + 8 * i + 8], "little")
        a = keccak(a)
    return b"".join(x.to_bytes(8, "little") for x in a[:4])


# The suites


class CounterMode:
    def __init__(self, key):
        self.key = key

    def add(self, n, payload):
        return xor(payload, key_stream(self.key, PAYLOAD * n, PAYLOAD))

    remove = add


class Lioness:
    def __init__(self, key):
        self.keys = [key[32 * i : 32 * i + 32] for i in range(4)]

    def right(self, left, right, key):
        return left, xor(right, key_stream(xor(left, key), 0, PAYLOAD - 32))

    def left(self, left, right, key):
        return xor(left, sha3(key + right)), right

    def add(self, n, payload):
        l, r = payload[:32], payload[32:]
        k = self.keys
        l, r = self.right(l, r, k[0])
        l, r = self.left(l, r, k[1])
        l, r = self.right(l, r, k[2])
        l, r = self.left(l, r, k[3])
        return l + r

    def remove(self, n, payload):
        l, r = payload[:32], payload[32:]
        k = self.keys
        l, r = self.left(l, r, k[3])
        l, r = self.right(l, r, k[2])
        l, r = self.left(l, r, k[1])
        l, r = self.right(l, r, k[0])
        return l + r


# seeds and keys of a slip, for the ways forward and backward
PARTS = {1: (20, 20, 16, 16), 2: (32, 32, 32, 32), 3: (32, 32, 128, 128)}
HASH = {1: sha1, 2: sha3, 3: sha3}
CIPHER = {1: CounterMode, 2: CounterMode, 3: Lioness}


def slip_parts(suite, slip):
    parts = []
    for size in PARTS[suite]:
        parts.append(slip[:size])
        slip = slip[size:]
    assert not slip
    return parts
