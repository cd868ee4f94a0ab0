#!/usr/bin/env python3
"""Answers a script as `sungrieb run` should: an independent reading of the rules, for line by line comparison."""
import sys

from automata import Alphabet, Positions, Stepper
from memory import Clock, Flush, Searcher, dense, pair
from patterns import Refused, read


def show_test(kind, test):
    if kind == "events":
        return "events %d %d %d" % test
    row = bytearray(32)
    for byte in test:
        row[byte // 8] |= 1 << byte % 8
    return "bytes " + row.hex()


def event(word):
    kind, rest = word.split(b":")
    value, moment = rest.split(b"@")
    return int(kind), int(value), int(moment)


def spans(found):
    return "".join(f" {start}-{end}" for start, end in found)


class Session:
    def __init__(self):
        self.draft, self.sealed, self.searcher, self.record = ("bytes", [], []), None, None, None

    def pattern(self, kind, text):
        self.draft = (kind, [], [])
        tests, codes = read(kind, text)
        self.draft = (kind, tests, codes)
        return f"accepted atoms {len(tests)} codes {' '.join(codes)}"

    def test(self, number):
        kind, tests, _ = self.draft
        return show_test(kind, tests[number - 1]) if 1 <= number <= len(tests) else "no test"

    def seal(self):
        kind, tests, codes = self.draft
        self.draft = (kind, [], [])
        self.sealed = Stepper(Alphabet(kind, tests), Positions(codes))
        nullable = "yes" if self.sealed.positions.nullable else "no"
        return f"sealed classes {self.sealed.alphabet.classes} nullable {nullable}"

    def class_of(self, word):
        symbol = int(word) if self.sealed.alphabet.kind == "bytes" else event(word)
        return f"class {self.sealed.alphabet.class_of(symbol)}"

    def positions(self):
        p = self.sealed.positions
        rows = [("first", p.first), ("last", p.last)] + [(f"follow {q}:", p.follow[q]) for q in range(1, p.atoms + 1)]
        return " ".join(" ".join([word, *map(str, sorted(row))]) for word, row in rows)

    def open(self, words):
        shelf = dense(int(words[1])) if words[0] == b"dense" else pair()
        policy = Clock() if words[-1] == b"clock" else Flush()
        self.searcher = Searcher(self.sealed, shelf, policy)
        return f"opened allowance {self.searcher.allowance()}"

    def set_record(self, symbols):
        self.record = symbols
        return f"record {len(symbols)} symbols"

    def search(self, word, numbers):
        searcher, record = self.searcher, self.record
        if word == b"find":
            span, counts = searcher.find(record, numbers[0])
            return ("found %d %d" % span if span else "none") + f" {counts}"
        if word == b"list":
            found, rest, counts = searcher.list(record, *numbers)
            return f"listed {len(found)}{spans(found)} rest {'none' if rest is None else rest} {counts}"
        if word == b"whole":
            yes, counts = searcher.whole(record)
            return f"{'yes' if yes else 'no'} {counts}"
        dropped = searcher.limit(numbers[0]) if word == b"limit" else searcher.clear()
        return f"dropped {dropped}"

    def answer(self, line):
        word, _, rest = line.partition(b" ")
        words = rest.split()
        if word == b"pattern":
            kind, _, text = rest.partition(b" ")
            if kind.endswith(b"-hex"):
                kind, text = kind[:-4], bytes.fromhex(text.decode())
            return self.pattern(kind.decode(), text)
        if word == b"test":
            return self.test(int(rest))
        if word == b"seal":
            return self.seal()
        if word == b"class":
            return self.class_of(rest)
        if word == b"passes":
            return "yes" if self.sealed.alphabet.class_passes(int(words[0]), int(words[1])) else "no"
        if word == b"positions":
            return self.positions()
        if word == b"open":
            return self.open(words)
        if word == b"record":
            return self.set_record(list(rest))
        if word == b"record-hex":
            return self.set_record(list(bytes.fromhex(rest.decode())))
        if word == b"record-repeat":
            return self.set_record(list(bytes.fromhex(words[1].decode()) * int(words[0]) if len(words) > 1 else b""))
        if word == b"events":
            return self.set_record([event(w) for w in words])
        if word == b"events-repeat":
            return self.set_record([event(words[1])] * int(words[0]) if len(words) > 1 else [])
        if word == b"memory":
            searcher = self.searcher
            return f"live {len(searcher.seats)} steps {len(searcher.shelf.steps)} allowance {searcher.allowance()}"
        if word in (b"find", b"list", b"whole", b"limit", b"clear"):
            return self.search(word, [int(w) for w in words])
        raise ValueError(line)


def main():
    session = Session()
    for line in sys.stdin.buffer.read().split(b"\n"):
        if not line.strip() or line.startswith(b"#"):
            continue
        try:
            print(session.answer(line))
        except Refused as refused:
            print(refused)


if __name__ == "__main__":
    main()
