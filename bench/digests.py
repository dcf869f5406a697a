"""The digests of blocks and names: SHA-256 twice, RIPEMD-160 and HASH160."""
import hashlib
import struct


def double_sha256(data):
    return hashlib.sha256(hashlib.sha256(data).digest()).digest()


def rotated(word, count):
    return (word << count | word >> (32 - count)) & 0xFFFFFFFF


# RIPEMD-160 as its authors publish it: for each of the five rounds the words and the shifts of both lines, the
# functions and the constants. hashlib has it on some machines alone.
def permuted(words):
    rho = [7, 4, 13, 1, 10, 6, 15, 3, 12, 0, 9, 5, 2, 14, 11, 8]
    rounds = [words]
    for _ in range(4):
        rounds.append([rho[word] for word in rounds[-1]])
    return rounds


WORDS = permuted(list(range(16))), permuted([(9 * i + 5) % 16 for i in range(16)])
SHIFTS = [
    [11, 14, 15, 12, 5, 8, 7, 9, 11, 13, 14, 15, 6, 7, 9, 8],
    [12, 13, 11, 15, 6, 9, 9, 7, 12, 15, 11, 13, 7, 8, 7, 7],
    [13, 15, 14, 11, 7, 7, 6, 8, 13, 14, 13, 12, 5, 5, 6, 9],
    [14, 11, 12, 14, 8, 6, 5, 5, 15, 12, 15, 14, 9, 9, 8, 6],
    [15, 12, 13, 13, 9, 5, 8, 6, 14, 11, 12, 11, 8, 6, 5, 5],
]
CONSTANTS = (
    [0, 0x5A827999, 0x6ED9EBA1, 0x8F1BBCDC, 0xA953FD4E],
    [0x50A28BE6, 0x5C4DD124, 0x6D703EF3, 0x7A6D76E9, 0],
)
FUNCTIONS = [
    lambda x, y, z: x ^ y ^ z,
    lambda x, y, z: x & y | ~x & z,
    lambda x, y, z: (x | ~y) ^ z,
    lambda x, y, z: x & z | y & ~z,
    lambda x, y, z: x ^ (y | ~z),
]


def line(state, block, words, constants, functions):
    a, b, c, d, e = state
    for places, shifts, constant, function in zip(words, SHIFTS, constants, functions):
        for place in places:
            mixed = rotated((a + function(b, c, d) + block[place] + constant) & 0xFFFFFFFF, shifts[place])
            a, b, c, d, e = e, (mixed + e) & 0xFFFFFFFF, b, rotated(c, 10), d
    return a, b, c, d, e


def ripemd160(data):
    state = 0x67452301, 0xEFCDAB89, 0x98BADCFE, 0x10325476, 0xC3D2E1F0
    padded = data + b"\x80" + bytes(-(len(data) + 9) % 64) + struct.pack("<Q", 8 * len(data))
    for block in struct.iter_unpack("<16I", padded):
        left = line(state, block, WORDS[0], CONSTANTS[0], FUNCTIONS)
        right = line(state, block, WORDS[1], CONSTANTS[1], FUNCTIONS[::-1])
        state = tuple((state[(i + 1) % 5] + left[(i + 2) % 5] + right[(i + 3) % 5]) & 0xFFFFFFFF for i in range(5))
    return struct.pack("<5I", *state)


def hash160(data):
    return ripemd160(hashlib.sha256(data).digest())
