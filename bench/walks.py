"""Walks of a cluster whose views name who may start, drawn from a seed, event by event as the trace lines of the events before allow them: disks that
fail, answer late and land late, packets that are lost, repeated and delivered late, clocks that drift, nodes that crash and leave, and sides that
see one another for a while. Who holds is told from outputs and answers alone."""
import random

from nodes import Node

TIMES = (50, 160, 10, 20, 10)  # watchdog, msgwait, loop, read limit and feed delay, in milliseconds
WATCHDOG, FEED_DELAY = TIMES[0], TIMES[4]
LONGEST_PASS = 8
TURNS = 600
KEPT = 60  # packets that may still be delivered
NOBODY = 254

# how likely each thing is, at each turn or for each operation, stop and packet
BOOTS, CRASHES, LEAVES, LOOKS = 0.3, 0.002, 0.001, 0.7
ANSWERED, FAILS, LANDS_LATE = 0.8, 0.03, 0.1
STOPS, STOP_FAILS = 0.5, 0.1
HEARD, LOST, REPEATED = 0.9, 0.1, 0.05
SIDES_CHANGE, TOLD, TOLD_BEFORE, NAMES = 0.03, 0.6, 0.002, 0.6


class TwoHolders(Exception):
    """Two nodes hold at once: their ids."""


class Walk:
    """A walk of so many nodes over a run that answers each event with its trace line. A seed draws the same walk of one program again."""

    def __init__(self, seed, count, replay):
        self.drawn = random.Random(seed)
        self.replay = replay
        self.now = 0
        self.nodes = {ident: Node(ident) for ident in range(1, count + 1)}
        self.fed = {}  # the time of the last feed of a node that runs, or of its boot
        self.decided = {}  # the time at which it decided on a feed last
        self.rates = {}  # by how many hundredths its clock advances in a millisecond
        self.packets = []  # the receiver of each packet that was sent
        self.under_way = []  # the numbers of those that may be delivered
        self.stopping = set()
        self.holders = set()
        self.views = []  # each view so far, as its number and its members
        self.sides = {}  # the view of the side of each node
        self.told = {}  # the view that a node was told last since its boot
        self.starts = self.changes = 0
        self.last_holder = None

    def play(self):
        """Plays the walk. TwoHolders says where two nodes held."""
        for _ in range(TURNS):
            self.turn()

    def draws(self, chance):
        return self.drawn.random() < chance

    # ---- events

    def event(self, *words):
        """Plays an event, and takes what its trace line says of the node."""
        report = self.replay.event(" ".join(map(str, words)))
        if words[0] == "pass":
            return
        ident = words[1]
        deeds = self.nodes[ident].take([str(word) for word in words], report)
        for out in report.outs:
            self.take_output(ident, out)
        for deed in deeds:
            self.take_deed(deed)

    def take_output(self, ident, out):
        if out == "feed":
            self.decided[ident] = self.now
        elif out.startswith(("ask>", "tell>")):
            self.under_way.append(len(self.packets))
            self.packets.append(int(out.partition(">")[2]))

    def take_deed(self, deed):
        if deed.kind == "starts":
            self.start(deed.node)
        elif deed.kind == "stops":
            self.stopping.add(deed.node)
        elif deed.kind in ("stopped", "crashes"):
            self.holders.discard(deed.node)

    def start(self, ident):
        self.holders.add(ident)
        if len(self.holders) > 1:
            raise TwoHolders(" and ".join(map(str, sorted(self.holders))))
        self.starts += 1
        self.changes += self.last_holder not in (None, ident)
        self.last_holder = ident

    # ---- a turn

    def turn(self):
        """Time goes by, each node has its turn, and packets come."""
        self.go_by()
        if self.draws(SIDES_CHANGE) or not self.views:
            self.part()
        idents = list(self.nodes)
        self.drawn.shuffle(idents)
        for ident in idents:
            if self.nodes[ident].runs:
                self.turn_of(ident)
            elif self.draws(BOOTS):
                self.boot(ident)
        self.deliver()

    def go_by(self):
        """A pass as long as no watchdog runs out; a machine whose watchdog would is down before."""
        time = self.drawn.randint(1, LONGEST_PASS)
        for ident in self.running():
            if 99 * (self.now + time - self.fed[ident]) > 100 * WATCHDOG:
                self.crash(ident)
        self.now += time
        self.event("pass", time, *("%d=%d" % (ident, time * self.rates[ident]) for ident in self.running()))

    def running(self):
        return [ident for ident, node in self.nodes.items() if node.runs]

    def boot(self, ident):
        self.fed[ident], self.rates[ident] = self.now, self.drawn.choice((99, 100, 101))
        for past in (self.decided, self.told):
            past.pop(ident, None)
        self.stopping.discard(ident)
        self.event("boot", ident, self.drawn.randint(0, 10000))

    def crash(self, ident):
        self.stopping.discard(ident)
        self.event("crash", ident)

    def turn_of(self, ident):
        """What comes to a node that runs: each event only while it still does."""
        steps = [self.answer, self.feed, self.tell_view, self.look, self.answer_stop]
        self.drawn.shuffle(steps)
        for step in [*steps, self.end]:
            if self.nodes[ident].runs:
                step(ident)

    def answer(self, ident):
        """What its disk was asked for fails, lands or is answered; a write that was lost lands late."""
        node = self.nodes[ident]
        if node.lost and self.draws(LANDS_LATE):
            self.event("late", ident, self.drawn.randint(1, len(node.lost)))
        if node.operation and self.draws(FAILS):
            self.event("fail", ident)
        elif node.operation and self.draws(ANSWERED):
            if not node.has_landed:
                self.event("land", ident)
            if self.draws(ANSWERED):
                self.event("done", ident)

    def feed(self, ident):
        if self.now - self.decided.get(ident, -FEED_DELAY - 1) <= FEED_DELAY:
            self.event("feed", ident)
            self.fed[ident] = self.now

    def look(self, ident):
        if self.draws(LOOKS):
            self.event("tick", ident)

    def answer_stop(self, ident):
        if ident in self.stopping and self.draws(STOPS):
            self.stopping.discard(ident)
            self.event("unstopped" if self.draws(STOP_FAILS) else "stopped", ident)

    def end(self, ident):
        if self.draws(CRASHES):
            self.crash(ident)
        elif self.draws(LEAVES):
            self.event("leave", ident)

    # ---- views

    def part(self):
        """The nodes part into sides that see one another: a new view for each."""
        idents = list(self.nodes)
        self.drawn.shuffle(idents)
        sides = self.drawn.randint(1, 2)
        for side in range(sides):
            members = sorted(idents[side::sides])
            if members:
                self.views.append(self.named(members))
                self.sides.update((ident, self.views[-1]) for ident in members)

    def named(self, members):
        """A view of these members with a new number, which names nobody in particular, a member, a node outside, or that nobody may start."""
        number = len(self.views) + 1
        if self.draws(NAMES):
            number += self.drawn.choice([*range(1, len(self.nodes) + 2), NOBODY]) << 56
        return number, members

    def tell_view(self, ident):
        """It is told the view of its side, or again one of before."""
        if self.nodes[ident].phase == "booting":
            return
        if self.told.get(ident) != self.sides[ident] and self.draws(TOLD):
            self.tell(ident, self.sides[ident])
        elif self.draws(TOLD_BEFORE):
            number, members = self.drawn.choice(self.views)
            if ident in members:
                self.tell(ident, (number, members))

    def tell(self, ident, view):
        self.told[ident] = number, members = view
        self.event("view", ident, number, ",".join(map(str, members)))

    # ---- packets

    def deliver(self):
        """Packets come, are lost, or come and may come again."""
        for number in list(self.under_way):
            if not self.nodes[self.packets[number]].runs or not self.draws(HEARD):
                continue
            if not self.draws(LOST):
                self.event("deliver", self.packets[number], number)
            if not self.draws(REPEATED):
                self.under_way.remove(number)
        self.under_way = self.under_way[-KEPT:]
