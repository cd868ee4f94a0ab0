"""Writes the patterns and the records of the benchmark into a folder. The same at every run."""
import os
import struct
import sys

MIB = 1 << 20


class Chance:
    """Xorshift with 64 bits, so that no release of Python changes the records."""

    def __init__(self, seed):
        self.state = seed

    def below(self, bound):
        x = self.state
        x ^= (x << 13) & 0xFFFFFFFFFFFFFFFF
        x ^= x >> 7
        x ^= (x << 17) & 0xFFFFFFFFFFFFFFFF
        self.state = x
        return (x >> 11) % bound


def letters(chance, alphabet, length):
    return bytearray(alphabet[chance.below(len(alphabet))] for _ in range(length))


def with_words(record, word, places):
    for place in places:
        record[place:place + len(word)] = word
    return record


# Thirty words of two letters, and text in which none of them stands.
WORDS = [bytes((97 + i % 26, 97 + (7 * i + 3) % 26)) for i in range(30)]


def wordless(chance, length):
    words = set(WORDS)
    text = bytearray(b" ")
    while len(text) < length:
        letter = 97 + chance.below(26)
        if bytes((text[-1], letter)) not in words:
            text.append(letter)
    return text


# A dozen atoms over events. The last kind never comes, but for the planted match.
EVENTS = b"10:0-99 (11|12:5-500|13:7)* (14:0-30000|15) 16* (17:1|18:2|19) 20+ 21"


def event(kind, value, moment):
    return struct.pack("<BBHI", kind, 0, value, moment)


def events(chance, length):
    out = []
    for i in range(length):
        kind = 9 + chance.below(12)
        value = chance.below(1000) if chance.below(2) else chance.below(65536)
        out.append(event(kind, value, i))
    match = [(10, 50), (11, 1), (13, 7), (14, 5), (16, 0), (19, 3), (20, 1), (20, 2), (21, 9)]
    for i, (kind, value) in enumerate(match):
        at = length - 100 + i
        out[at] = event(kind, value, at)
    return b"".join(out)


def workloads():
    star = b"a(b|c)*d"
    half = b"(a|b)*a" + b"(a|b)" * 8
    chance = Chance(88172645463325252)
    yield "1", star, letters(chance, b"abcx", MIB)
    yield "1b", star, letters(chance, b"abcefghijklmnopqrstuvwxyz", MIB)
    yield "2", star, with_words(letters(chance, b"abcx", MIB), b"xabcbd", [MIB - 100])
    yield "3", star, with_words(letters(chance, b"abcx", MIB // 64), b"xabcbd", range(30, MIB // 64 - 30, 64))
    yield "4", half, letters(chance, b"ab", MIB // 16)
    yield "5", b"|".join(WORDS), with_words(wordless(chance, MIB), WORDS[17], [MIB - 100])
    yield "6", star, letters(chance, b"abcdefgh", 20 * 100_000)
    yield "7", EVENTS, events(chance, 1_000_000)


def main(folder):
    os.makedirs(folder, exist_ok=True)
    for name, pattern, record in workloads():
        with open(os.path.join(folder, name + ".pattern"), "wb") as file:
            file.write(pattern)
        with open(os.path.join(folder, name + ".record"), "wb") as file:
            file.write(bytes(record))


if __name__ == "__main__":
    main(sys.argv[1])
