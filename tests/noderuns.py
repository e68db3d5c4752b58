"""A second program of a running node, written from docs/dev/NODE.md, docs/dev/VIEWS.md, docs/dev/PACKETS.md and docs/dev/LIVE.md alone: the calls that a node makes
over an outside, as `node-logged` writes them, and how its run ends. The rows of runs in tests/program/qn_tests/stdin are made by it."""
from collections import namedtuple

import nodebytes
from members import PLAIN, Member, Said
from naming import SILENT, NamingMember, flags_of, standing_of
from nodebytes import ALL_MASK, FAILED, Announce, Ask, Hello, Leave, PlainHello, Slot, Tell, View, Vote, Word, mask_of
from nodecore import Core, Entry

# The words of a run: the turn from which on the node leaves, or None.
Words = namedtuple("Words", "ident turns leave is_clean_start")

# How a run ended: the line of the node, and its exit status.
End = namedtuple("End", "line status")

BARRED, UNFIT, PULL = 1, 2, 4  # the flags of a word of this host
PULL_LOOPS = 60  # for so many loops a pull waits for a start
HALTS = {"reset": 2, "off": 3, "crashdump": 5}  # the codes of halts; that of a boot is 10 more than its cause


class Run:
    """A node turn by turn. `outside` answers its calls."""

    def __init__(self, settings, words, outside):
        self.settings, self.words, self.outside = settings, words, outside
        self.me = settings.ids.index(words.ident)
        self.core = Core(settings, self.me)
        self.member = None
        self.last_look = 0
        self.stop_waits, self.disk_waits = None, None  # an answer of a stop, and an entry that answers the disk, which the next turns take
        self.rests = False  # whether the turn before took an answer of the disk that had failed
        self.asked_to_leave = False
        self.word, self.pulls_since = Word(0, 0), None  # what this host says of its node; the tick since which it pulls, while it does
        self.received = None
        self.closed = False

    def played(self):
        """Plays the run to its end."""
        for turn in range(1, self.words.turns + 1):
            end = self.turn(turn)
            if end:
                return end
        return End("turns %d %s" % (self.words.turns, self.core.stands()), 0)

    def turn(self, turn):
        entry = self.chosen(turn)
        tick = self.outside.now()
        if tick < self.core.tick:
            return End("fault ClockBack %d %d" % (self.core.tick, tick), 12)
        self.end_pull(tick)
        if entry is None:
            entry = self.looked(tick)
        self.rests = entry.kind in ("slot", "check", "mail", "written", "closed") and entry.given in (False, FAILED) and self.core.is_live()
        outs = self.core.step(tick, entry)
        if entry.kind == "closed":
            self.closed = entry.given
        for out in outs:
            end = self.done(out)
            if end:
                return end
        self.greet(tick)
        return None

    # ---- what the node is handed

    def chosen(self, turn):
        """The entry that a turn begins with; None where that is found at its tick, by a look."""
        if turn == 1:
            return Entry("begin", self.words.is_clean_start)
        if self.stop_waits is not None:
            entry, self.stop_waits = self.stop_waits, None
            return entry
        if self.disk_waits is not None and not self.rests:
            entry, self.disk_waits = self.disk_waits, None
            return entry
        if self.core.phase == "up" and (self.asked_to_leave or self.words.leave is not None and self.words.leave <= turn):
            return Entry("leave")
        self.received = None if self.is_late() else nodebytes.packet_of(self.outside.receive())
        self.take_host(self.received)
        return self.entry_of(self.received)

    def is_late(self):
        """Whether the view maker last looked a loop or more before the last entry."""
        return self.member is not None and self.core.tick - self.last_look >= self.core.times.loop

    def entry_of(self, packet):
        """What a packet is to the core, None where it is for the view maker or for nobody."""
        if isinstance(packet, Vote):
            return Entry("device", packet.agrees)
        if isinstance(packet, (Ask, Tell)) and packet.to == self.me:
            return Entry("ask" if isinstance(packet, Ask) else "tell", packet)
        return None

    def looked(self, tick):
        """The view maker hears what was received, and looks."""
        if self.member is None:
            return Entry("tick")
        self.last_look = tick
        self.hear(tick, self.received)
        view = self.look(tick)
        return Entry("tick") if view is None else Entry("view", View(*view))

    def hear(self, tick, packet):
        if isinstance(packet, PlainHello):
            self.member.on_plain_hello(tick, packet.sender)
        elif isinstance(packet, Hello):
            hears = PLAIN.hears if mask_of(packet.hears) == ALL_MASK else packet.hears
            self.hear_hello(tick, packet, Said(hears, packet.follows, packet.able))
        elif isinstance(packet, Announce):
            self.member.on_announce(packet.sender, packet.view)

    def hear_hello(self, tick, packet, said):
        self.member.on_hello(tick, packet.sender, said, standing_of(packet.flags, packet.weight))

    # ---- what the node says of itself

    def take_host(self, packet):
        """What this host asks its node for, and what it says of it from now on: of words in a row that pull the first one counts."""
        if isinstance(packet, Leave):
            self.asked_to_leave = True
        elif isinstance(packet, Word):
            if not packet.flags & PULL:
                self.pulls_since = None
            elif not self.word.flags & PULL:
                self.pulls_since = self.core.tick
            self.word = packet

    def end_pull(self, tick):
        """A pull ends where the node holds, and some loops after its word."""
        if self.pulls_since is not None and (self.core.holds or tick >= self.pulls_since + PULL_LOOPS * self.core.times.loop):
            self.pulls_since = None

    def stands(self):
        """What the node says of itself: the words of its host, and whether it holds."""
        flags, pulls = self.word.flags, self.pulls_since is not None
        return SILENT._replace(barred=flags & BARRED > 0, unfit=flags & UNFIT > 0, pull=pulls, weight=self.word.weight), self.core.holds

    def look(self, tick):
        return self.member.look(tick, *self.stands())

    # ---- what the node does

    def done(self, out):
        """Makes the call of an output; gives the end of a run that ends with it."""
        if out.kind == "stop":
            self.stop_waits = Entry("stopped", self.outside.resource("stop"))
        elif out.kind == "start":
            self.outside.resource("start")
        elif out.kind == "feed":
            self.outside.feed()
        elif out.kind == "send":
            rank, packet = out.of
            self.outside.send(rank, nodebytes.packet_bytes(packet))
        elif out.kind == "disk":
            self.disk_waits = self.answer(out.of)
        elif out.kind == "halt":
            return self.halted(out.of)
        else:
            return self.left()
        return None

    def answer(self, operation):
        """The answer of an operation of the disk."""
        kind, of = operation
        ident = self.settings.ids[self.me]
        if kind == "header":
            return Entry(kind, self.read(0, nodebytes.header_of))
        if kind == "slot":
            return Entry(kind, self.read(nodebytes.slot_sector(of), lambda data: nodebytes.slot_of(data, self.settings.ids[of])))
        if kind in ("check", "mail"):
            return Entry(kind, self.read(nodebytes.mail_sector(self.me), nodebytes.mail_of))
        if kind == "clear":
            return Entry("cleared", self.outside.write(nodebytes.mail_sector(self.me), nodebytes.mail_bytes("empty")))
        if kind == "reset":
            return Entry("written", self.outside.write(nodebytes.mail_sector(of), nodebytes.mail_bytes("reset", ident, self.core.incarnation)))
        slot = nodebytes.slot_bytes(ident, Slot(of, kind == "close"))
        return Entry({"claim": "claimed", "close": "closed"}[kind], self.outside.write(nodebytes.slot_sector(self.me), slot))

    def read(self, sector, reader):
        data = self.outside.read(sector)
        return FAILED if data is None else reader(data)

    def halted(self, cause):
        is_boot = isinstance(cause, int)
        self.outside.halt(10 + cause if is_boot else HALTS[cause])
        return End("fault BootHalted %d" % cause, 14) if is_boot else End("fault SelfReset %s" % cause, 13)

    def left(self):
        """The watchdog is disarmed, and a node that left clean says farewell."""
        self.outside.disarm()
        if not self.closed:
            return End("left dirty", 0)
        farewell = self.member.farewell()
        if farewell is not None:
            self.tell_others(Announce(self.me, View(*farewell)))
        return End("left clean", 0)

    # ---- what the node says

    def greet(self, tick):
        """Hellos where they are due, and the view to announce behind them. A node that comes up has a view maker from then on."""
        if not self.core.is_live():
            self.member = None
            return
        if self.member is None:
            self.member, self.last_look = self.begins(), tick
        if self.member.is_hello_due(tick):
            self.say_hello()
            view = self.member.to_announce()
            if view is not None:
                self.tell_others(Announce(self.me, View(*view)))

    def enough(self):
        """The votes that a side needs of its own nodes to lead."""
        of_device = self.settings.device[0] if self.settings.device else 0
        return 0 if self.settings.two_node else max(1, self.settings.expected // 2 + 1 - of_device)

    def begins(self):
        """The view maker of a node that comes up."""
        votes, needed = dict(enumerate(self.settings.votes)), self.settings.expected // 2 + 1
        member = NamingMember(self.me, votes, self.enough(), self.core.times.loop, needed)
        member.stand(*self.stands())
        return member

    def say_hello(self):
        said, standing = self.member.to_say()
        self.tell_others(Hello(self.me, said.hears, said.follows, said.able, flags_of(standing), standing.weight))

    def tell_others(self, packet):
        for rank in range(len(self.settings.ids)):
            if rank != self.me:
                self.outside.send(rank, nodebytes.packet_bytes(packet))


class RunBefore(Run):
    """A node of the release before: it names nobody, says each Hello in both forms, and knows no named view."""

    def begins(self):
        return Member(self.me, dict(enumerate(self.settings.votes)), self.enough(), self.core.times.loop)

    def look(self, tick):
        return self.member.look(tick)

    def hear(self, tick, packet):
        if not (isinstance(packet, Announce) and nodebytes.name_of(packet.view.number)):
            super().hear(tick, packet)

    def hear_hello(self, tick, packet, said):
        self.member.on_hello(tick, packet.sender, said)

    def say_hello(self):
        said = self.member.to_say()
        self.tell_others(PlainHello(self.me))
        self.tell_others(Hello(self.me, said.hears, said.follows, said.able, 0, 0))
