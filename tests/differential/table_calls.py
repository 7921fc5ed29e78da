"""Sequences of receipts, sweeps, searches and lists of running events on one event table."""
import choices
import expected
import packet_calls
from choices import any_number, chance

LATEST_CLOCK = 2 ** 64 - 65_536
LATEST = 2 ** 64 - 1
CLOCKS = (0, 1, 65_535, LATEST_CLOCK - 65_536, LATEST_CLOCK - 1, LATEST_CLOCK, LATEST_CLOCK + 1, 2 ** 64 - 2, 2 ** 64 - 1)
TTLS = (0, 1, 60, 65_534, 65_535)


def case(rng):
    scene = Scene(rng)
    table = scene.table()
    for _ in range(rng.randint(10, 30)):
        if chance(rng, 15):
            _, table = yield "sweep", (table, scene.sweep_time(table))
        elif chance(rng, 15):
            yield "find_event", (table, *scene.event_and_sequence(table)[:2])
        elif chance(rng, 25):
            time = scene.asked_time(table)
            yield "running", (scene.room(table, time), table, time)
        else:
            _, table = yield "receive", (table, scene.packet(table), scene.keys(), mark(rng, chance(rng, 95)), scene.clock())


def mark(rng, is_set):
    """A byte that is set or not: any but 0 is."""
    return rng.choice((1, 1, 1, 2, 128, 254, 255, rng.randint(1, 255))) if is_set else 0


def bounded(value):
    """The nearest number of 64 bits."""
    return max(0, min(LATEST, value))


class Scene:
    """A few key ids, events and a time around which everything happens, so that they meet often."""

    def __init__(self, rng):
        self.rng = rng
        self.known_keys = [any_number(rng, 32) for _ in range(rng.choice((1, 2, 3, 8)))]
        self.events = [any_number(rng, 32) for _ in range(rng.choice((1, 2, 6, 100)))]
        self.now = rng.choice(CLOCKS) if chance(rng, 15) else any_number(rng, 40)
        self.steady_keys = self.key_list()

    # ---- the table at the start

    def table(self):
        rng = self.rng
        length = rng.choice((0, 1, 2, 3, 5, 8, 63, 64, 65, 80, rng.randint(0, 80)))
        used = rng.choice((0, 10, 50, 90, 100))
        return [self.entry(chance(rng, used)) for _ in range(length)]

    def entry(self, used):
        rng = self.rng
        if chance(rng, 10):
            return mark(rng, used), 0, 0, 0, 0, 0, 0, 0
        return (mark(rng, used), rng.choice(self.known_keys), rng.choice(self.events), self.sequence(), mark(rng, chance(rng, 30)),
                self.keep_until(), *self.entry_period())

    def sequence(self):
        return self.rng.choice((0, 1, 9, 65_534, 65_535)) if chance(self.rng, 30) else self.rng.getrandbits(16)

    def keep_until(self):
        rng = self.rng
        if chance(rng, 15):
            return rng.choice((0, 1, LATEST, 2 ** 63))
        return bounded(self.now + rng.randint(-70_000, 140_000))

    def entry_period(self):
        """Timestamp and expiry of an entry: those of a packet, or made up, also the wrong way round."""
        rng = self.rng
        if chance(rng, 60):
            return self.packet_period()
        return tuple(rng.choice((0, 1, 2 ** 63, LATEST - 1, LATEST)) if chance(rng, 15) else bounded(self.now + rng.randint(-20, 20)) for _ in range(2))

    def packet_period(self):
        """Timestamp and expiry of a packet that is sound: it lasts around now, or not yet, or no more."""
        rng = self.rng
        lasting = choices.lasting(rng) if chance(rng, 50) else rng.randint(1, 200)
        timestamp = self.now - rng.choice((0, 1, -1, lasting, lasting - 1, lasting // 2, rng.randrange(lasting), rng.randint(-300, 300)))
        timestamp = max(0, min(LATEST - lasting, timestamp))
        return timestamp, timestamp + lasting

    # ---- what is received

    def packet(self, table):
        rng = self.rng
        if chance(rng, 4):
            return packet_calls.pick(rng)
        key, event, sequence = self.event_and_sequence(table)
        ttl = rng.choice(TTLS) if chance(rng, 40) else rng.getrandbits(16)
        return packet_calls.made(rng, event, sequence, ttl, key, self.packet_period() if chance(rng, 70) else None)

    def event_and_sequence(self, table):
        """Of some entry, with a number around its own; or of any event."""
        rng = self.rng
        if table and chance(rng, 60):
            _, key, event, stored, *_ = rng.choice(table)
            return key, event, (stored + rng.choice((-1, 0, 1, 1, 1, rng.randrange(100)))) % 65_536
        key = any_number(rng, 32) if chance(rng, 5) else rng.choice(self.known_keys)
        return key, rng.choice(self.events) if chance(rng, 70) else any_number(rng, 32), self.sequence()

    def key_list(self):
        rng = self.rng
        listed = list(self.known_keys)
        if chance(rng, 30):
            listed = rng.sample(listed, rng.randint(0, len(listed)))
        listed += [any_number(rng, 32) for _ in range(rng.choice((0, 0, 1, 4)))]
        rng.shuffle(listed)
        return listed

    def keys(self):
        return self.steady_keys if chance(self.rng, 90) else self.key_list()

    def clock(self):
        rng = self.rng
        if chance(rng, 6):
            return rng.choice(CLOCKS)
        self.now = min(LATEST, self.now + rng.choice((0, 0, 1, rng.randrange(100), rng.randrange(40_000))))
        if self.now > LATEST_CLOCK and chance(rng, 60):
            self.now = rng.choice((LATEST_CLOCK, any_number(rng, 40)))
        return self.now

    def sweep_time(self, table):
        rng = self.rng
        if table and chance(rng, 60):
            return bounded(rng.choice(table)[5] + rng.choice((-1, 0, 0, 1)))
        return rng.choice((0, LATEST, any_number(rng, 64))) if chance(rng, 30) else self.now

    # ---- what is listed

    def asked_time(self, table):
        """At the limits of some entry's period or within it, or around now, or any."""
        rng = self.rng
        if table and chance(rng, 60):
            timestamp, expiry = rng.choice([entry for entry in table if entry[0]] or table)[6:]
            return bounded(rng.choice((timestamp - 1, timestamp, timestamp, timestamp + 1, expiry - 1, expiry - 1, expiry, (timestamp + expiry) // 2)))
        return rng.choice((0, LATEST, any_number(rng, 64))) if chance(rng, 10) else bounded(self.now + rng.choice((0, 0, -1, 1, rng.randint(-50, 50))))

    def room(self, table, time):
        """Room with any content: too short, just enough, for all entries, ample."""
        rng = self.rng
        count, length = expected.model.running(table, time, len(table))[1], len(table)
        places = rng.choice((0, count - 1, count, count, count + 1, length - 1, length, length, length + 1, rng.randint(0, length + 20)))
        return [(rng.getrandbits(32), rng.getrandbits(32)) for _ in range(places)]
