"""Linux's jhash over addresses as plain numbers, and the generator of searches."""

from __future__ import annotations

WORD = 0xFFFFFFFF
LONG = 0xFFFFFFFFFFFFFFFF


def rol(word: int, by: int) -> int:
    """A 32-bit word rotated left."""
    return ((word << by) | (word >> (32 - by))) & WORD


def final_mix(a: int, b: int, c: int) -> int:
    """__jhash_final of include/linux/jhash.h, which gives c; all modulo 2^32."""
    c ^= b
    c = (c - rol(b, 14)) & WORD
    a ^= c
    a = (a - rol(c, 11)) & WORD
    b ^= a
    b = (b - rol(a, 25)) & WORD
    c ^= b
    c = (c - rol(b, 16)) & WORD
    a ^= c
    a = (a - rol(c, 4)) & WORD
    b ^= a
    b = (b - rol(a, 14)) & WORD
    c ^= b
    c = (c - rol(b, 24)) & WORD
    return c


def jhash_3words(a: int, b: int, c: int, i: int) -> int:
    """jhash_3words: `i + 0xdeadbeef + 12` is added to each word."""
    add = i + 0xDEADBEEF + 12
    return final_mix((a + add) & WORD, (b + add) & WORD, (c + add) & WORD)


def jhash_1word(a: int, i: int) -> int:
    """jhash_1word: the words a, 0, 0 and `i + 0xdeadbeef + 4`."""
    add = i + 0xDEADBEEF + 4
    return final_mix((a + add) & WORD, add & WORD, add & WORD)


def tuple_hash(local: int, lport: int, remote: int, rport: int, seed: int, net: int = 0) -> int:
    """A four-tuple's hash; its seed is `(seed + net) mod 2^32`."""
    return jhash_3words(local, remote, lport * 65536 + rport, (seed + net) & WORD)


def listen_hash(addr: int, port: int, seed: int, net: int = 0) -> int:
    """A listener's hash; its seed is `(seed + net) mod 2^32`."""
    return jhash_1word(addr, (seed + net) & WORD) ^ port


def scale(h: int, n: int) -> int:
    """reciprocal_scale: `(h * n) >> 32`, n at least 1."""
    return (h * n) >> 32


class Lcg64Xsh32:
    """PCG32, XSH RR with 64 bits of state, as the crate rand_pcg has it.

    `new(state, stream)`: the increment is `(stream << 1) | 1`, the state is
    `state + increment` stepped once. A word is taken from the state before
    the step: XSH RR, rotated right by the top five bits.
    """

    MULTIPLIER = 6364136223846793005

    def __init__(self, state: int, stream: int) -> None:
        self.increment = ((stream << 1) & LONG) | 1
        self.state = (state + self.increment) & LONG
        self._step()

    def _step(self) -> None:
        self.state = (self.state * self.MULTIPLIER + self.increment) & LONG

    def next_u32(self) -> int:
        """The next 32-bit output word."""
        before = self.state
        self._step()
        word = (((before >> 18) ^ before) >> 27) & WORD
        by = before >> 59
        return ((word >> by) | (word << (32 - by))) & WORD
