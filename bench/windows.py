#!/usr/bin/env python3
"""Compares two plain programs on windows, origins and parcels, and both with examples worked by hand.

One program reads them off the list of all visits, as crates/parcel defines them: the lookahead, where windows start, the window of a visit, where the
knowledge of it comes from, what a core knows, the parcel of each number and pair, what each core does in all. The other runs cores that know nothing
but what they were told, over boxes of one parcel each, in a random order of posts, takes and windows. Setups have pipes that change and loss words
by packet and by arrival. Each parcel, least tick, start and result has to be the same in both, and some setup has to tell each wrong rule from the
right one.

usage: bench/windows.py [SETUPS] [SEED]      1,000 setups and seed 1 where none are given; half a minute
"""
import random
import sys

from setups import Rules, conditions, draw_setup, latency_ticks, test_words

LOOKAHEAD_MAX = 2**40


# ---- by the list of all visits. A visit is (tick, packet, hop, pipe, step), where a step is an exit tick, "lost" or "full".

class ByVisits:
    """What the definitions say. Each wrong rule of `WRONG` differs in one of them."""

    def __init__(self, setup):
        self.setup = setup
        self.visits, _fates = Rules().run(setup)
        self.packets = {packet[0]: packet for packet in setup["packets"]}
        self.at = {(visit[1], visit[2]): visit for visit in self.visits}
        self.last = {visit[1]: visit for visit in self.visits}
        self.length = self.lookahead()
        self.starts = self.all_starts()

    def route(self, number):
        return self.setup["routes"][self.packets[number][3]]

    def owner(self, visit):
        return self.setup["owners"][visit[3]]

    def latencies(self, pipe):
        values = [self.setup["pipes"][pipe]] + [values for _tick, which, values in self.setup["changes"] if which == pipe]
        return [latency_ticks(each[1], self.setup["tick_ns"]) for each in values]

    def crossed(self):
        owners = self.setup["owners"]
        routes = [self.route(number) for number in self.packets]
        return {pipe for route in routes for pipe, after in zip(route, route[1:]) if owners[pipe] != owners[after]}

    def lookahead(self):
        return min((latency for pipe in self.crossed() for latency in self.latencies(pipe)), default=LOOKAHEAD_MAX)

    def all_starts(self):
        """s_0 is the least tick; s_(n+1) is the least that is s_n + length or later."""
        starts, bound = [], 0
        while later := [visit[0] for visit in self.visits if visit[0] >= bound]:
            starts.append(min(later))
            bound = starts[-1] + self.length
        return starts

    def window(self, visit):
        found = [number for number, start in enumerate(self.starts) if start <= visit[0] < start + self.length]
        assert len(found) == 1, "a visit has one window"
        return found[0]

    def origin(self, visit):
        """Which core knows of a visit first, and as of which parcels."""
        if visit[2] == 0:
            return self.packets[visit[1]][4], 0
        before = self.at[visit[1], visit[2] - 1]
        return self.owner(before), self.window(before) + 1

    def knows(self, core, number, visit):
        """The three ways in which a core knows of a visit as it makes its parcels of this number."""
        origin, told = self.origin(visit)
        if self.owner(visit) == core:
            return told <= number if origin == core else told < number
        return origin == core and told == number

    def least(self, core, number):
        return min((visit[0] for visit in self.visits if self.window(visit) >= number and self.knows(core, number, visit)), default=None)

    def notes(self, sender, receiver, number):
        notes = [(visit[0], visit[1], "arrive", visit[2]) for visit in self.visits
                 if self.owner(visit) == receiver and self.origin(visit) == (sender, number)]
        for packet, last in self.last.items():
            if self.packets[packet][4] == receiver and self.owner(last) == sender and self.window(last) + 1 == number:
                tick = last[0] if isinstance(last[4], str) else last[4]
                notes.append((tick, packet, "settle", last[4]))
        return sorted(notes)

    def parcel(self, sender, receiver, number):
        return self.notes(sender, receiver, number), self.least(sender, number)

    def settled(self, core):
        return {number: self.last[number][4] if number in self.last else packet[1]
                for number, packet in self.packets.items() if packet[4] == core}

    def counts(self, core):
        entered = [packet for packet in self.packets.values() if packet[4] == core]
        told = [visit for visit in self.visits if self.origin(visit)[0] == core and self.owner(visit) != core]
        decided = [last for number, last in self.last.items() if self.owner(last) == core and self.packets[number][4] != core]
        return {
            "pipes": self.setup["owners"].count(core),
            "entered": len(entered),
            "visits": sum(self.owner(visit) == core for visit in self.visits),
            "arrivals": len(told),
            "settles": len(decided),
            "windows": len(self.starts),
        }


def wrong(**rules):
    return type("Wrong", (ByVisits,), rules)


def all_latencies(self):
    return min((latency for pipe in range(len(self.setup["pipes"])) for latency in self.latencies(pipe)), default=LOOKAHEAD_MAX)


def first_latencies(self):
    return min((self.latencies(pipe)[0] for pipe in self.crossed()), default=LOOKAHEAD_MAX)


def latencies_of_ends(self):
    """Pipes whose packets all leave the network there count, too."""
    ends = {self.route(number)[-1] for number in self.packets if self.route(number)}
    return min((latency for pipe in self.crossed() | ends for latency in self.latencies(pipe)), default=LOOKAHEAD_MAX)


def least_without_parcels(self, core, number):
    return min((visit[0] for visit in self.visits
                if self.window(visit) >= number and self.owner(visit) == core and self.knows(core, number, visit)), default=None)


def starts_at_multiples(self):
    return sorted({visit[0] - visit[0] % self.length for visit in self.visits})


def window_with_end(self, visit):
    return max(number for number, start in enumerate(self.starts) if number == 0 or start < visit[0])


WRONG = {
    "the lookahead over all pipes": wrong(lookahead=all_latencies),
    "the lookahead over first parameters alone": wrong(lookahead=first_latencies),
    "the lookahead over pipes at which packets leave": wrong(lookahead=latencies_of_ends),
    "a least tick without the visits in the core's own parcels": wrong(least=least_without_parcels),
    "windows start at multiples of the length": wrong(all_starts=starts_at_multiples),
    "a visit at the start of a window is in the one before": wrong(window=window_with_end),
}


# ---- by cores that know what they were told

class Core:
    def __init__(self, world, number):
        self.world, self.number, self.setup = world, number, world.setup
        self.windows, self.posted, self.taken = 0, {}, {}
        self.due, self.earlier, self.settled = [], {}, {}
        self.arrivals = self.settles = self.visits = 0
        self.others = [core for core in range(self.setup["cores"]) if core != number]
        self.told = {core: [] for core in self.others}
        for packet in self.setup["packets"]:
            if packet[4] != number:
                continue
            route = self.setup["routes"][packet[3]]
            if route:
                self.tell((packet[1], packet[0], 0), self.setup["owners"][route[0]])
            else:
                self.settled[packet[0]] = packet[1]
        self.make()

    def tell(self, due, owner):
        if owner == self.number:
            self.due.append(due)
        else:
            self.told[owner].append((due[0], due[1], "arrive", due[2]))
            self.arrivals += 1

    def settle(self, packet, step, tick):
        entry = self.world.packets[packet][4]
        if entry == self.number:
            self.settled[packet] = step
        else:
            self.told[entry].append((tick if isinstance(step, str) else step, packet, "settle", step))
            self.settles += 1

    def make(self):
        """The parcels of the next number, and the least tick of what is due here or is told in them."""
        ticks = [due[0] for due in self.due] + [note[0] for notes in self.told.values() for note in notes if note[2] == "arrive"]
        self.least = min(ticks, default=None)
        self.parcels = {core: (sorted(notes), self.least) for core, notes in self.told.items()}
        self.told = {core: [] for core in self.others}
        self.leasts = {self.number: self.least}

    def events(self):
        boxes = self.world.boxes
        for core in self.others:
            if self.posted.get(core, 0) == self.windows and boxes.get((self.number, core)) is None:
                yield self.post, core
            if self.taken.get(core, 0) == self.windows and boxes.get((core, self.number)) is not None:
                yield self.take, core
        if all(self.posted.get(core, 0) == self.taken.get(core, 0) == self.windows + 1 for core in self.others):
            if any(least is not None for least in self.leasts.values()):
                yield self.run, None

    def post(self, core):
        self.world.seen[self.number, core, self.windows] = self.world.boxes[self.number, core] = self.parcels[core]
        self.posted[core] = self.windows + 1

    def take(self, core):
        notes, self.leasts[core] = self.world.boxes[core, self.number]
        self.world.boxes[core, self.number] = None
        self.taken[core] = self.windows + 1
        for tick, packet, kind, value in notes:
            if kind == "arrive":
                self.due.append((tick, packet, value))
            else:
                self.settled[packet] = value

    def run(self, _core):
        start = min(least for least in self.leasts.values() if least is not None)
        self.world.starts.setdefault(self.windows, set()).add(start)
        while self.due and min(self.due)[0] < start + self.world.length:
            tick, packet, hop = first = min(self.due)
            self.due.remove(first)
            self.visit(tick, packet, hop)
        self.windows += 1
        self.make()

    def visit(self, tick, packet, hop):
        _number, _entry, length, route, _core = self.world.packets[packet]
        pipe = self.setup["routes"][route][hop]
        earlier = self.earlier.setdefault(pipe, [])
        step = Rules().step(self.setup, earlier, pipe, tick, packet, length)
        assert not earlier or earlier[-1][0] <= tick, "a visit comes too late"
        earlier.append((tick, length, step))
        self.visits += 1
        if isinstance(step, str) or hop + 1 == len(self.setup["routes"][route]):
            self.settle(packet, step, tick)
        else:
            self.tell((step, packet, hop + 1), self.setup["owners"][self.setup["routes"][route][hop + 1]])

    def counts(self):
        return {
            "pipes": self.setup["owners"].count(self.number),
            "entered": sum(packet[4] == self.number for packet in self.setup["packets"]),
            "visits": self.visits,
            "arrivals": self.arrivals,
            "settles": self.settles,
            "windows": self.windows,
        }


class World:
    def __init__(self, setup, length, draw):
        self.setup, self.length = setup, length
        self.packets = {packet[0]: packet for packet in setup["packets"]}
        self.boxes, self.seen, self.starts = {}, {}, {}
        self.cores = [Core(self, number) for number in range(setup["cores"])]
        while events := [event for core in self.cores for event in core.events()]:
            event, core = draw.choice(events)
            event(core)


def differences(setup, rules, world):
    """What a program by the list of all visits says otherwise than the cores did."""
    found = rules(setup)
    starts = [starts for _number, starts in sorted(world.starts.items())]
    if starts != [{start} for start in found.starts]:
        yield "starts"
    last = len(found.starts)
    wanted = {(i, j, n) for i in range(setup["cores"]) for j in range(setup["cores"]) for n in range(last + 1) if i != j}
    if set(world.seen) != wanted:
        yield "numbers of parcels"
    for (sender, receiver, number), parcel in world.seen.items():
        if parcel != found.parcel(sender, receiver, number):
            yield f"parcel {number} from {sender} to {receiver}"
    for core in world.cores:
        if core.settled != found.settled(core.number):
            yield f"what is settled at {core.number}"
        if core.counts() != found.counts(core.number):
            yield f"counts of {core.number}"


def differs(setup, rules, world):
    try:
        return rules(setup).length != world.length or any(True for _ in differences(setup, rules, world))
    except (AssertionError, ValueError, IndexError):
        return True


# ---- examples worked by hand, with ticks of 100,000 ns

def example(cores, pipes, owners, packets, changes=()):
    """Packets are (entry tick, length, route, entry core)."""
    return {
        "tick_ns": 100_000, "seed": 0, "base_ns": 0, "link_type": 101, "cores": cores, "arrival": False, "pipes": pipes, "owners": owners,
        "routes": [list(packet[2]) for packet in packets],
        "packets": [(number, entry, length, number, core) for number, (entry, length, _route, core) in enumerate(packets)],
        "changes": list(changes),
    }


STAR = [(8_000_000, 5_000, 50, 0)] * 6
STAR_PACKETS = [(0, 1_000, (0, 4), 0), (0, 1_000, (2, 4), 1)]
STUBS = [(10_000_000, 1_000, 50, 0)] * 8 + [(2_000_000, 20_000, 20, 0)] * 2
STUBS_PACKETS = [(0, 1_250, (0, 8, 4), 0), (0, 1_250, (2, 8, 6), 0)]

# the setup, its lookahead, its starts, and pipes, entered, visits, arrivals, settles of each core that does something
EXAMPLES = {
    "two hosts send to a third, each host at its own core": (
        example(3, STAR, [0, 0, 1, 1, 2, 2], STAR_PACKETS),
        50, [0, 60], {0: (2, 1, 1, 1, 0), 1: (2, 1, 1, 1, 0), 2: (2, 0, 2, 0, 2)}),
    "one pipe is faster from tick 1,000 on": (
        example(3, STAR, [0, 0, 1, 1, 2, 2], STAR_PACKETS, [(1_000, 0, (8_000_000, 0, 50, 0))]),
        1, [0, 60], {0: (2, 1, 1, 1, 0), 1: (2, 1, 1, 1, 0), 2: (2, 0, 2, 0, 2)}),
    "two stubs, joined by the slow pipes 8 and 9": (
        example(2, STUBS, [0, 0, 0, 0, 1, 1, 1, 1, 0, 1], STUBS_PACKETS),
        200, [0, 270], {0: (5, 2, 4, 2, 0), 1: (5, 0, 2, 0, 2)}),
    "two stubs at one core": (
        example(1, STUBS, [0] * 10, STUBS_PACKETS),
        LOOKAHEAD_MAX, [0], {0: (10, 2, 6, 0, 0)}),
    "a packet, and a second one 100,000 s later": (
        example(16, [(8_000_000, 5_000, 50, 0)] * 4, [0, 1, 2, 3], [(0, 1_000, (0, 2), 0), (10**9, 1_000, (0, 2), 0)]),
        50, [0, 60, 10**9, 10**9 + 60], {0: (1, 2, 2, 2, 0), 1: (1, 0, 0, 0, 0), 2: (1, 0, 2, 0, 2), 3: (1, 0, 0, 0, 0)}),
}


def check_examples(draw):
    for name, (setup, lookahead, starts, cores) in EXAMPLES.items():
        conditions(setup)
        found = ByVisits(setup)
        assert (found.length, found.starts) == (lookahead, starts), name
        for core in range(setup["cores"]):
            counts = found.counts(core)
            assert tuple(counts[key] for key in ("pipes", "entered", "visits", "arrivals", "settles")) == cores.get(core, (0,) * 5), (name, core)
            assert counts["windows"] == len(starts), name
        assert not list(differences(setup, ByVisits, World(setup, lookahead, draw))), name
    print(f"{len(EXAMPLES)} examples agree")


def main():
    count = int(sys.argv[1]) if len(sys.argv) > 1 else 1_000
    draw = random.Random(int(sys.argv[2]) if len(sys.argv) > 2 else 1)
    test_words()
    check_examples(draw)
    parcels = notes = windows = crossings = 0
    told = dict.fromkeys(WRONG, 0)
    for at in range(count):
        setup = draw_setup(draw)
        conditions(setup)
        found = ByVisits(setup)
        world = World(setup, found.length, draw)
        bad = list(differences(setup, ByVisits, world))
        assert not bad, (at, bad, setup)
        parcels += len(world.seen)
        notes += sum(len(parcel[0]) for parcel in world.seen.values())
        windows += len(found.starts)
        crossings += found.length < LOOKAHEAD_MAX
        for name, rules in WRONG.items():
            told[name] += differs(setup, rules, world)
    print(f"{count} setups agree, {crossings} of them with packets from core to core: {windows} windows, {parcels} parcels, {notes} notes")
    for name, times in told.items():
        print(f"  told apart in {times:>4}: {name}")
        assert times or count < 200, name


if __name__ == "__main__":
    main()
