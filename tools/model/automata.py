"""Classes and positions, read independently of the proved code."""


class Alphabet:
    def __init__(self, kind, tests):
        self.kind, self.tests = kind, tests
        if kind == "bytes":
            rows, self.table, self.examples = {}, [], []
            for byte in range(256):
                row = tuple(byte in test for test in tests)
                if row not in rows:
                    rows[row] = len(rows)
                    self.examples.append(byte)
                self.table.append(rows[row])
            self.classes = len(rows)
        else:
            cuts = {code for low, high, _ in tests for code in (low, high + 1)}
            self.cuts = sorted(cuts - {0, 16777216})
            self.examples = [0] + self.cuts
            self.classes = len(self.cuts) + 1

    def symbol_code(self, symbol):
        return symbol if self.kind == "bytes" else symbol[0] * 65536 + symbol[1]

    def class_of(self, symbol):
        if self.kind == "bytes":
            return self.table[symbol]
        code = self.symbol_code(symbol)
        return sum(cut <= code for cut in self.cuts)

    def test_passes(self, test, code):
        if not 1 <= test <= len(self.tests):
            return False
        if self.kind == "bytes":
            return code in self.tests[test - 1]
        low, high, inverted = self.tests[test - 1]
        return (low <= code <= high) != bool(inverted)

    def class_passes(self, number, test):
        return number < self.classes and self.test_passes(test, self.examples[number])


class Positions:
    """First, last, followers and nullability of a pattern, from its codes."""

    def __init__(self, codes):
        stack, atom, self.follow = [], 0, {}
        for code in codes:
            if code == "atom":
                atom += 1
                self.follow[atom] = set()
                stack.append(({atom}, {atom}, False))
            elif code in ("join", "choice"):
                right, left = stack.pop(), stack.pop()
                if code == "join":
                    self.link(left[1], right[0])
                    first = left[0] | right[0] if left[2] else left[0]
                    last = right[1] | left[1] if right[2] else right[1]
                    stack.append((first, last, left[2] and right[2]))
                else:
                    stack.append((left[0] | right[0], left[1] | right[1], left[2] or right[2]))
            else:
                first, last, nullable = stack.pop()
                if code in ("star", "plus"):
                    self.link(last, first)
                stack.append((first, last, nullable if code == "plus" else True))
        self.first, self.last, self.nullable = stack[0] if stack else (set(), set(), False)
        self.atoms = atom

    def link(self, lasts, firsts):
        for position in lasts:
            self.follow[position] |= firsts


class Stepper:
    """The step rule over classes."""

    def __init__(self, alphabet, positions):
        self.alphabet, self.positions, self.cache = alphabet, positions, {}

    def step(self, back, state, number):
        key = (back, state, number)
        if key not in self.cache:
            self.cache[key] = self.compute(*key)
        return self.cache[key]

    def compute(self, back, state, number):
        p = self.positions
        passing = {q for q in range(1, p.atoms + 1) if self.alphabet.class_passes(number, q)}
        if back:
            found = {q for q in passing if (q in p.last and 0 in state) or p.follow[q] & state}
            return frozenset(found | {0})
        reached = set()
        for q in state:
            reached |= p.first if q == 0 else p.follow[q]
        return frozenset(reached & passing)
