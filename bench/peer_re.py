"""Python's re, as one of the libraries beside ours: find|list|records bytes re ROUNDS PATTERN RECORD."""
import re
import sys
import time

WIDTH = 20


def spans(work, pattern, record):
    if work == "find":
        match = pattern.search(record)
        return [match.span()] if match else []
    if work == "list":
        return [match.span() for match in pattern.finditer(record)]
    found = []
    search = pattern.search
    for at in range(0, len(record), WIDTH):
        match = search(record[at:at + WIDTH])
        if match:
            found.append(match.span())
    return found


def main(work, _symbols, _engine, rounds, pattern, record):
    with open(pattern, "rb") as file:
        pattern = re.compile(file.read())
    with open(record, "rb") as file:
        record = file.read()
    best = None
    for _ in range(int(rounds)):
        start = time.perf_counter_ns()
        found = spans(work, pattern, record)
        ns = time.perf_counter_ns() - start
        best = ns if best is None else min(best, ns)
    total = sum(31 * start + end for start, end in found)
    print(f"spans {len(found)} sum {total}")
    print(f"ns {best}", file=sys.stderr)


main(*sys.argv[1:])
