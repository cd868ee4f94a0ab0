#!/usr/bin/env python3
"""Writes a script of boundary and random patterns: generate.py SEED COUNT. The same seed gives the same script."""
import random
import sys

BYTE_SIGNS = b"()|*+?[]{}.\\^$-:abz09\n\t ntr,]"
EVENT_SIGNS = b"()|*+?.!:- 0123456789x"
NAMES = [b"upper", b"lower", b"alpha", b"digit", b"alnum", b"xdigit", b"blank", b"space", b"foo", b"Upper", b""]


class Generator:
    def __init__(self, seed):
        self.random, self.lines = random.Random(seed), []

    def pick(self, choices):
        return self.random.choice(choices)

    def noise(self, alphabet):
        length = self.pick([0, 1, 2, 3, 5, 8, 13, 20, 40])
        return bytes(self.pick(alphabet) for _ in range(length))

    def member(self):
        chance = self.random.random()
        if chance < 0.2:
            return b"[:" + self.pick(NAMES) + self.pick([b":]", b":", b"]", b""])
        if chance < 0.5:
            ends = [self.random.randrange(256), self.random.randrange(256)]
            if self.random.random() < 0.8:
                ends.sort()
            return bytes([ends[0]]) + b"-" + bytes([ends[1]])
        if chance < 0.7:
            return self.pick([b"-", b"]", b"^", b"[", b"[:", b"\\", b":"])
        return bytes([self.random.randrange(32, 127)])

    def byte_atom(self):
        chance = self.random.random()
        if chance < 0.4:
            return bytes([self.pick(b"abcxyz019")])
        if chance < 0.5:
            return b"."
        if chance < 0.6:
            return b"\\" + bytes([self.pick(b"()|*+?[]{}.\\^$ntrq")])
        members = b"".join(self.member() for _ in range(self.random.randrange(4)))
        return b"[" + self.pick([b"", b"^"]) + members + self.pick([b"]", b"]", b"]", b""])

    def number(self, most):
        value = self.random.randrange(most + 1)
        return self.pick([str(value), str(value), str(most), str(most + 1), "0", "00", f"{value % 100:05}", "000001", ""]).encode()

    def event_atom(self):
        if self.random.random() < 0.1:
            return b"."
        text = self.pick([b"", b"", b"!"]) + self.number(255)
        if self.random.random() < 0.6:
            text += b":" + self.number(65535)
            if self.random.random() < 0.6:
                text += b"-" + self.number(65535)
        return text

    def pattern(self, kind, depth):
        chance = self.random.random()
        if depth == 0 or chance < 0.2:
            return self.byte_atom() if kind == "bytes" else self.event_atom()
        inner = self.pattern(kind, depth - 1)
        if chance < 0.45:
            return inner + (b"" if kind == "bytes" else self.pick([b" ", b"", b"  "])) + self.pattern(kind, depth - 1)
        if chance < 0.6:
            return inner + b"|" + self.pattern(kind, depth - 1)
        if chance < 0.8:
            return b"(" + inner + b")"
        return inner + self.pick([b"*", b"+", b"?"])

    def text(self, kind):
        chance = self.random.random()
        if chance < 0.1:
            return self.noise(range(256))
        if chance < 0.4:
            return self.noise(BYTE_SIGNS if kind == "bytes" else EVENT_SIGNS)
        text = bytearray(self.pattern(kind, self.random.randrange(6)))
        for _ in range(self.pick([0, 0, 1, 2])):
            if text and self.random.random() < 0.5:
                del text[self.random.randrange(len(text))]
            else:
                text.insert(self.random.randrange(len(text) + 1), self.pick(BYTE_SIGNS))
        return bytes(text)

    def say(self, line):
        self.lines.append(line)

    def read(self, kind, text):
        self.say(f"pattern {kind}-hex {text.hex()}")
        for number in self.random.sample([0, 1, 2, 3, 4, 63, 64], self.random.randrange(3)):
            self.say(f"test {number}")

    def boundaries(self):
        for kind, atom, between in (("bytes", b"a", b""), ("events", b"4", b" ")):
            for length in (511, 512, 513, 600):
                for text in (atom + b"*" * (length - 1), b"$" * length, b"(" * length):
                    self.read(kind, text)
            for count in (62, 63, 64, 65, 100):
                row = between.join([atom] * count)
                for text in (row, b"*" + row, row + b"$"):
                    self.read(kind, text)
            for depth in (31, 32, 33, 34, 100):
                nested = b"(" * depth + atom + b")" * depth
                for text in (nested, b"(" * depth, atom + nested + b")", nested + between + atom):
                    self.read(kind, text)

    def seal(self, kind):
        self.say("seal")
        self.say("positions")
        for _ in range(4):
            symbol = self.random.randrange(256)
            if kind == "events":
                symbol = f"{self.pick([0, 4, 255, symbol])}:{self.pick([0, 65535, self.random.randrange(65536)])}@{self.random.randrange(2**32)}"
            self.say(f"class {symbol}")
            self.say(f"passes {self.random.randrange(6)} {self.random.randrange(6)}")

    def run(self, count, sealing):
        self.boundaries()
        for _ in range(count):
            kind = self.pick(["bytes", "events"])
            self.read(kind, self.text(kind))
            if sealing:
                self.seal(kind)


def main():
    generator = Generator(int(sys.argv[1]))
    generator.run(int(sys.argv[2]), "--seal" in sys.argv)
    print("\n".join(generator.lines))


if __name__ == "__main__":
    main()
