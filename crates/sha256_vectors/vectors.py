"""Writes what the program sha256_vectors must print, with Python's hashlib in the place of the crate sha256.

    python3 vectors.py > stdout
"""
import hashlib
import struct

# first word, what each word is above the one before it, how many blocks: as in src/main.rt
RUNS = [
    (0x61616161, 0x00000000, 15625),
    (0x00000000, 0x00000000, 0),
    (0x00000000, 0x00000000, 1),
    (0xffffffff, 0x00000000, 1),
    (0x00000000, 0x00000001, 1),
    (0x00000001, 0x00000000, 2),
    (0x01020304, 0x04040404, 2),
    (0x80000000, 0x00000000, 3),
    (0x00000000, 0x9e3779b9, 7),
    (0xdeadbeef, 0x01010101, 63),
    (0x00000000, 0x00000000, 64),
    (0xffffffff, 0x00000000, 64),
    (0x00000000, 0x9e3779b9, 64),
    (0x00000007, 0x80000001, 65),
    (0x00000000, 0x00000001, 127),
    (0x12345678, 0x11111111, 128),
    (0xffff0000, 0xffffffff, 1000),
    (0x0badcafe, 0x10000001, 8193),
]


def of_words(words):
    return hashlib.sha256(struct.pack("<%dI" % len(words), *words)).hexdigest()


def two_words(a, b):
    return [a, b] + [0] * 14


print(hashlib.sha256(b"abc").hexdigest())
print(hashlib.sha256(b"abcdbcdecdefdefgefghfghighijhijkijkljklmklmnlmnomnopnopq").hexdigest())
for first, step, blocks in RUNS:
    print(of_words([(first + i * step) % 2**32 for i in range(16 * blocks)]))
print(of_words(two_words(2, 4096)))
print(of_words(two_words(2, 4096) + two_words(4, 0x00401003) + [0x04030201] * 1024 + two_words(2, 8192)))
