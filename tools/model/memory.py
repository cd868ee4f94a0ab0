"""Shelves, policies and the searcher, read independently of the proved code."""
from patterns import Refused

START = frozenset([0])


class Shelf:
    def __init__(self, places, capacity):
        self.places, self.capacity, self.steps = places, capacity, {}

    def drop(self, places):
        gone = [key for key, target in self.steps.items() if key[0] in places or target in places]
        for key in gone:
            del self.steps[key]
        return len(gone)


def dense(length):
    places = min(64, length // 256)
    return Shelf(places, 256 * places)


def pair():
    return Shelf(64, 512)


class Flush:
    def __init__(self):
        self.live = set()

    def seat(self, place):
        self.live.add(place)

    def drop(self, places):
        self.live -= places

    def touch(self, place):
        pass

    def choose(self, held):
        return self.live - {held}


class Clock(Flush):
    def __init__(self):
        super().__init__()
        self.marks, self.hand = set(), 0

    def seat(self, place):
        self.live.add(place)
        self.marks.add(place)

    def touch(self, place):
        self.marks.add(place)

    def choose(self, held):
        for turn in range(128):
            place = (self.hand + turn) % 64
            if place not in self.live or place == held:
                continue
            if place in self.marks:
                self.marks.discard(place)
            else:
                self.hand = (place + 1) % 64
                return {place}
        return set()


class Counts:
    def __init__(self):
        self.reads = self.known = self.built = self.plain = self.dropped = 0

    def __str__(self):
        return f"reads {self.reads} known {self.known} built {self.built} plain {self.plain} dropped {self.dropped}"


class Searcher:
    def __init__(self, stepper, shelf, policy):
        self.stepper, self.shelf, self.policy = stepper, shelf, policy
        self.seats, self.limit_is = {}, 64  # place -> (back, set)

    def allowance(self):
        return min(self.limit_is, self.shelf.places)

    def place_of(self, seat):
        return next((place for place, other in self.seats.items() if other == seat), None)

    def drop_places(self, places):
        for place in places:
            del self.seats[place]
        self.policy.drop(set(places))
        return self.shelf.drop(places)

    def seat(self, seat, held, counts):
        place = self.place_of(seat)
        if place is not None:
            self.policy.touch(place)
            return place
        if len(self.seats) >= self.allowance():
            chosen = self.policy.choose(held)
            if not chosen:
                return None
            counts.dropped += self.drop_places(set(chosen))
        place = next(p for p in range(64) if p not in self.seats)
        self.seats[place] = seat
        self.policy.seat(place)
        return place

    def read(self, back, state, symbol, counts):
        number = self.stepper.alphabet.class_of(symbol)
        counts.reads += 1
        here = self.seat((back, state), None, counts)
        target = self.stepper.step(back, state, number)
        if here is not None and (here, number) in self.shelf.steps:
            counts.known += 1
            self.policy.touch(self.shelf.steps[(here, number)])
            return target
        there = self.seat((back, target), here, counts)
        if here is None or there is None:
            counts.plain += 1
            return target
        if len(self.shelf.steps) >= self.shelf.capacity:
            counts.dropped += len(self.shelf.steps)
            self.shelf.steps.clear()
        self.shelf.steps[(here, number)] = there
        counts.built += 1
        return target

    def find_once(self, record, start_at, counts):
        p = self.stepper.positions
        state, start = START, None
        for place in range(len(record) - 1, start_at - 1, -1):
            state = self.read(True, state, record[place], counts)
            if state & p.first:
                start = place
        if start is None:
            return None
        state, end = START, start
        for place in range(start, len(record)):
            state = self.read(False, state, record[place], counts)
            if not state:
                break
            if state & p.last:
                end = place + 1
        return start, end

    @staticmethod
    def check(record, start_at=0):
        if len(record) > 1048576:
            raise Refused(14, 0)
        if start_at > len(record):
            raise Refused(15, 0)

    def find(self, record, start_at):
        self.check(record, start_at)
        counts = Counts()
        return self.find_once(record, start_at, counts), counts

    def list(self, record, start_at, entries):
        self.check(record, start_at)
        counts, found = Counts(), []
        while True:
            span = self.find_once(record, start_at, counts)
            if span is None:
                return found, None, counts
            if len(found) == entries:
                return found, start_at, counts
            found.append(span)
            start_at = span[1]

    def whole(self, record):
        self.check(record)
        counts = Counts()
        if not record:
            return self.stepper.positions.nullable, counts
        state = START
        for symbol in record:
            state = self.read(False, state, symbol, counts)
            if not state:
                return False, counts
        return bool(state & self.stepper.positions.last), counts

    def limit(self, number):
        if number > 64:
            raise Refused(16, 0)
        self.limit_is = number
        return self.clear() if len(self.seats) > self.allowance() else 0

    def clear(self):
        return self.drop_places(set(self.seats))
