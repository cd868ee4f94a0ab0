"""The rules of the two notations and of the pattern grammar, read independently of the proved code."""

LAYER = {**{n: 2 for n in range(3, 9)}, 9: 3, **{n: 4 for n in range(10, 14)}, **{n: 5 for n in range(14, 17)}}
CLASS_NAMES = {
    b"upper": [(65, 90)],
    b"lower": [(97, 122)],
    b"alpha": [(65, 90), (97, 122)],
    b"digit": [(48, 57)],
    b"alnum": [(65, 90), (97, 122), (48, 57)],
    b"xdigit": [(48, 57), (65, 70), (97, 102)],
    b"blank": [(9, 9), (32, 32)],
    b"space": [(9, 13), (32, 32)],
}
SIGNS = b"()|*+?"
ESCAPABLE = b"()|*+?[]{}.\\^$"
CONTROL = {ord("n"): 10, ord("t"): 9, ord("r"): 13}


class Refused(Exception):
    def __init__(self, number, place):
        super().__init__(number, place)
        self.number, self.place = number, place

    def __str__(self):
        return f"refused {self.number} layer {LAYER[self.number]} place {self.place}"


def read_bracket(text, start):
    """The bytes that pass the bracket at `start`, and where it ends."""
    at = start + 1
    negated = text[at : at + 1] == b"^"
    if negated:
        at += 1
    members, first = set(), True
    while True:
        if at >= len(text):
            raise Refused(6, start)
        byte = text[at]
        if byte == ord("]") and not first:
            break
        first = False
        named = next((n for n in CLASS_NAMES if text.startswith(b"[:" + n + b":]", at)), None)
        if named is not None:
            for low, high in CLASS_NAMES[named]:
                members.update(range(low, high + 1))
            at += len(named) + 4
        elif at + 2 < len(text) and text[at + 1] == ord("-") and text[at + 2] != ord("]"):
            if text[at + 2] < byte:
                raise Refused(7, at)
            members.update(range(byte, text[at + 2] + 1))
            at += 3
        else:
            members.add(byte)
            at += 1
    if negated:
        members = set(range(256)) - members - {10}
    return frozenset(members), at + 1


def byte_items(text):
    """Items as (sign or 'atom', place, test)."""
    at, items = 0, []
    while at < len(text):
        byte = text[at]
        if byte in SIGNS:
            items.append((chr(byte), at, None))
            at += 1
        elif byte == ord("."):
            items.append(("atom", at, frozenset(range(256)) - {10}))
            at += 1
        elif byte == ord("\\"):
            escaped = text[at + 1] if at + 1 < len(text) else None
            if escaped is not None and escaped in ESCAPABLE:
                value = escaped
            elif escaped in CONTROL:
                value = CONTROL[escaped]
            else:
                raise Refused(5, at)
            items.append(("atom", at, frozenset([value])))
            at += 2
        elif byte in b"{^$":
            raise Refused(4, at)
        elif byte == ord("["):
            test, end = read_bracket(text, at)
            items.append(("atom", at, test))
            at = end
        else:
            items.append(("atom", at, frozenset([byte])))
            at += 1
    return items


def read_number(text, at, most):
    end = at
    while end < len(text) and 48 <= text[end] <= 57:
        end += 1
    if not 1 <= end - at <= 5 or int(text[at:end]) > most:
        raise Refused(8, at)
    return int(text[at:end]), end


def event_items(text):
    """Items; an atom's test is (lowest code, highest code, inverted)."""
    at, items = 0, []
    while at < len(text):
        byte = text[at]
        if byte == 32:
            at += 1
        elif byte in SIGNS:
            items.append((chr(byte), at, None))
            at += 1
        elif byte == ord("."):
            items.append(("atom", at, (0, 16777215, 0)))
            at += 1
        elif byte == ord("!") or 48 <= byte <= 57:
            start, inverted = at, int(byte == ord("!"))
            kind, at = read_number(text, at + inverted, 255)
            low, high = 0, 65535
            if text[at : at + 1] == b":":
                value_at = at + 1
                low, at = read_number(text, value_at, 65535)
                high = low
                if text[at : at + 1] == b"-":
                    high, at = read_number(text, at + 1, 65535)
                    if high < low:
                        raise Refused(7, value_at)
            items.append(("atom", start, (kind * 65536 + low, kind * 65536 + high, inverted)))
        else:
            raise Refused(4, at)
    return items


def structure(items, length):
    """The codes in postfix order."""
    codes, around = [], []
    branches, repeats = False, 0

    def end_branch():
        if repeats > 1:
            codes.append("join")
        if branches:
            codes.append("choice")

    for item, place, _ in items:
        if item in ("atom", "("):
            if item == "(" and len(around) == 32:
                raise Refused(10, place)
            if repeats > 1:
                codes.append("join")
                repeats = 1
            if item == "atom":
                codes.append("atom")
                repeats += 1
            else:
                around.append((branches, repeats + 1))
                branches, repeats = False, 0
            continue
        if repeats == 0:
            raise Refused(11, place)
        if item == ")":
            if not around:
                raise Refused(12, place)
            end_branch()
            branches, repeats = around.pop()
        elif item == "|":
            end_branch()
            branches, repeats = True, 0
        else:
            codes.append({"*": "star", "+": "plus", "?": "maybe"}[item])
    if repeats == 0:
        raise Refused(11, length)
    if around:
        raise Refused(13, length)
    end_branch()
    return codes


def read(kind, text):
    """The tests and the codes of a text, or Refused."""
    if len(text) > 512:
        raise Refused(3, 512)
    items = byte_items(text) if kind == "bytes" else event_items(text)
    atoms = [item for item in items if item[0] == "atom"]
    if len(atoms) > 63:
        raise Refused(9, atoms[63][1])
    codes = structure(items, len(text))
    return [atom[2] for atom in atoms], codes
