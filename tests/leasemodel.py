"""Two nodes that are cut off from each other and their arbiter in true time, as docs/dev/VOTES.md tells of them: messages that come late, twice or not at all, pauses between
any two steps, clocks that are 1 % off, boots and views. A world is as it is told there, or wrong in one thing; where both nodes count the device's yes at one
moment it gives the vote to two sides, since neither of them is in the other one's view."""
import heapq
import itertools
import random
from collections import namedtuple

LIMIT, TIMEOUT = 200, 1000
LEASE = -(-101 * (LIMIT + TIMEOUT) // 99) + 1  # the least one that is safe
END = 60000  # milliseconds of a run

AS_TOLD = "as told"
EARLY_LOOK = "the arbiter looks at its clock before it receives"
EARLY_JUDGEMENT = "a reply is judged as it comes, and counts later"
NO_LEASE = "the arbiter boots without a lease"
RESTORED = "the arbiter's memory is that of a while ago"
SHORT_LEASE = "the lease is a fifth shorter"
WRONG = (EARLY_LOOK, EARLY_JUDGEMENT, NO_LEASE, RESTORED, SHORT_LEASE)

Poll = namedtuple("Poll", "rank number incarnation install")
Answer = namedtuple("Answer", "poll agrees")


class Arbiter:
    """What it remembers since its boot at that tick: of each node the latest pair that it polled with, and the tick of its last yes."""

    def __init__(self, lease, booted):
        self.lease, self.booted = lease, booted
        self.latest, self.yeses = {}, {}

    def answer(self, tick, poll):
        pair = poll.incarnation, poll.install
        latest = self.latest.get(poll.rank, pair)
        is_free = all(rank == poll.rank or tick >= yes + self.lease for rank, yes in self.yeses.items())
        agrees = tick >= self.booted + self.lease and pair >= latest and is_free
        self.latest[poll.rank] = max(pair, latest)
        if agrees:
            self.yeses[poll.rank] = tick
        return Answer(poll, agrees)


class Node:
    """A node: its clock, its boot and view, its last poll, and until which tick it counts the yes."""

    def __init__(self, rank, rate):
        self.rank, self.rate = rank, rate
        self.incarnation, self.install, self.number = 1, 1, 0
        self.last, self.counts_until = None, -1

    def tick(self, time):
        return int(time * self.rate)

    def polls(self, time):
        poll = Poll(self.rank, self.number, self.incarnation, self.install)
        self.number, self.last = self.number + 1, (poll, self.tick(time))
        return poll

    def takes(self, time, answer):
        """Whether the answer is one to its last poll, in time."""
        return self.last is not None and answer.poll == self.last[0] and self.tick(time) - self.last[1] <= LIMIT

    def counts(self, time):
        return self.tick(time) < self.counts_until

    def sees(self):
        """Another view: the last poll and the yes are of the one before."""
        self.install, self.last, self.counts_until = self.install + 1, None, -1

    def boots(self):
        self.__init__(self.rank, self.rate)


class World:
    """One run. `both` are the moments at which both count."""

    def __init__(self, seed, wrong=AS_TOLD):
        self.draw, self.wrong = random.Random(seed), wrong
        self.time, self.due, self.order = 0, [], itertools.count()
        self.nodes = [Node(rank, self.draw.choice([0.99, 1, 1.01])) for rank in (0, 1)]
        self.rate = self.draw.choice([0.99, 1, 1.01])
        self.lease = LEASE * 4 // 5 if wrong == SHORT_LEASE else LEASE
        self.arbiter, self.inbox, self.is_busy, self.looked = Arbiter(self.lease, 0), [], False, 0
        self.both = []

    def run(self):
        for node in self.nodes:
            self.after(self.draw.randrange(100), self.poll, node)
            self.after(self.draw.randrange(500, 6000), self.view, node)
            self.after(self.draw.randrange(3000, 20000), self.boot, node)
        self.after(self.draw.randrange(4000, 15000), self.restart)
        if self.wrong == RESTORED:
            self.after(3000, self.keep)
        while self.due and self.due[0][0] <= END:
            self.time, _, happens, given = heapq.heappop(self.due)
            happens(*given)
        return self

    def after(self, length, happens, *given):
        heapq.heappush(self.due, (self.time + length, next(self.order), happens, given))

    def pause(self):
        """Between two steps of a program: mostly none."""
        return 0 if self.draw.random() < 0.93 else self.draw.choice([self.draw.randrange(5), self.draw.randrange(400), self.draw.randrange(3000)])

    def way(self):
        """How long a message is on its way."""
        return self.draw.randrange(20) if self.draw.random() < 0.8 else self.draw.choice([self.draw.randrange(2 * LIMIT), self.draw.randrange(4000)])

    def sent(self, happens, message):
        """A message comes once, or not, or twice."""
        for _ in range(self.draw.choice([0, 1, 1, 1, 2])):
            self.after(self.pause() + self.way(), happens, message)

    def clock(self):
        """The arbiter's."""
        return int(self.time * self.rate)

    # ---- the nodes

    def poll(self, node):
        self.sent(self.arrive, node.polls(self.time))
        self.after(self.draw.choice([20, 50, 100, 300, 900]), self.poll, node)

    def comes(self, answer):
        if self.wrong == EARLY_JUDGEMENT:
            node = self.nodes[answer.poll.rank]
            if node.takes(self.time, answer):
                self.after(self.draw.randrange(3000) if self.draw.random() < 0.2 else 0, self.count, node, answer)
        else:
            self.after(self.pause(), self.judge, answer)

    def judge(self, answer):
        node = self.nodes[answer.poll.rank]
        if node.takes(self.time, answer):
            self.count(node, answer)

    def count(self, node, answer):
        if (answer.poll.incarnation, answer.poll.install) != (node.incarnation, node.install):
            return
        node.counts_until = node.tick(self.time) + TIMEOUT if answer.agrees else -1
        if all(each.counts(self.time) for each in self.nodes):
            self.both.append(self.time)

    def view(self, node):
        node.sees()
        self.after(self.draw.randrange(500, 6000), self.view, node)

    def boot(self, node):
        incarnation = node.incarnation + 1
        node.boots()
        node.incarnation = incarnation
        self.after(self.draw.randrange(3000, 20000), self.boot, node)

    # ---- the arbiter: it receives, looks at its clock, and answers

    def arrive(self, poll):
        self.inbox.append(poll)
        if not self.is_busy:
            self.is_busy = True
            self.receive()

    def receive(self):
        if not self.inbox:
            self.is_busy, self.looked = False, self.clock()
            return
        poll = self.inbox.pop(0)
        if self.wrong == EARLY_LOOK:
            self.answer(poll, self.looked)
        else:
            self.after(self.pause(), self.look, poll)

    def look(self, poll):
        self.after(self.pause(), self.answer, poll, self.clock())

    def answer(self, poll, tick):
        self.sent(self.comes, self.arbiter.answer(tick, poll))
        self.looked = self.clock()
        self.after(0, self.receive)

    def restart(self):
        self.arbiter = Arbiter(self.lease, self.clock() - (self.lease if self.wrong == NO_LEASE else 0))
        self.after(self.draw.randrange(4000, 15000), self.restart)

    def keep(self):
        """What the arbiter remembers is kept, and is all that it remembers a while later."""
        self.after(self.draw.randrange(1000, 4000), self.restore, dict(self.arbiter.latest), dict(self.arbiter.yeses))

    def restore(self, latest, yeses):
        self.arbiter.latest, self.arbiter.yeses = latest, yeses
        self.after(self.draw.randrange(1000, 9000), self.keep)


def runs_with_two(wrong, runs):
    """In how many of these runs both count at one moment."""
    return sum(bool(World(seed, wrong).run().both) for seed in range(runs))
