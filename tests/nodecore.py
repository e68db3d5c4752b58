"""The core of a node, entry by entry, as docs/dev/NODE.md and docs/QUORUM.md tell it: what it asks of the disk, says to its peers and does with the
resource, for the second program of a running node (tests/noderuns.py)."""
from collections import namedtuple

from nodebytes import DAMAGED, DEADLY, FAILED, NOBODY, Ask, Header, Slot, Tell, is_safe, name_of

# What a node is handed: its kind, and what comes with it.
Entry = namedtuple("Entry", "kind given", defaults=(None,))

# An output: its kind, and what it is of: a packet and whom it goes to, an operation of the disk, or why the node halts.
Out = namedtuple("Out", "kind of", defaults=(None,))

# An operation of the disk: its kind, and the rank or the incarnation that it is of.
Operation = namedtuple("Operation", "kind of", defaults=(None,))

# An operation that is out: the place of the entry that asked for it, and its tick.
Asked = namedtuple("Asked", "operation place tick")

# The causes of a boot that halts.
READ_FAILED, NOT_IMAGE, UNSAFE, CLAIM_FAILED, CLEAR_FAILED, INCARNATION_SPENT, NOT_CLEAN = range(1, 8)

ANSWERS = ("header", "slot", "check", "claimed", "cleared", "mail", "written", "closed")


def chosen_of(view):
    """The rank of the node that a view lets start, None where nobody may."""
    name = name_of(view.number)
    if name == NOBODY:
        return None
    return name - 1 if name - 1 in view.members else view.members[0]


def gives_away(view, me):
    """Whether a view names another member than this node, or nobody."""
    name = name_of(view.number)
    return name == NOBODY or name > 0 and name - 1 in view.members and name - 1 != me


class Count:
    """The votes of a node: docs/QUORUM.md."""

    def __init__(self, settings):
        self.settings = settings
        self.view, self.view_tick, self.expected = None, 0, settings.expected
        self.released, self.yes, self.majority = not settings.wait_for_all, None, range(len(settings.ids))

    def take(self, tick, kind, given):
        """A view, the vote of the device, a word that another node is released, or time that passes."""
        if kind == "view":
            self.view, self.view_tick, self.yes = given, tick, None
            self.released = self.released or len(given.members) == len(self.settings.ids)
            self.expected = max(self.expected, self.view_votes())
        elif kind == "device":
            self.yes = tick if given else None
        elif kind == "released":
            self.released = True
        self.lower(tick)
        if kind == "view" and 2 * self.view_votes() > self.expected:
            self.majority = given.members

    def lower(self, tick):
        """last_man_standing: the votes of a view that stood for the window become the expected ones."""
        settings, votes = self.settings, self.view_votes()
        if settings.last_man_standing and self.view and self.view_tick + settings.window <= tick and self.released and self.quorum() <= votes:
            self.expected = min(self.expected, votes)

    def view_votes(self):
        return sum(self.settings.votes[rank] for rank in self.view.members) if self.view else 0

    def quorum(self):
        return 1 if self.settings.two_node else self.expected // 2 + 1

    def votes(self, tick):
        """The votes that count: those of the view, and the device's."""
        if self.view is None:
            return 0
        counts = self.settings.device is not None and self.yes is not None and tick < self.yes + self.settings.device[1]
        return self.view_votes() + (self.settings.device[0] if counts else 0)

    def is_quorate(self, tick):
        return self.view is not None and self.released and (self.quorum() <= self.votes(tick) or self.breaks_tie())

    def breaks_tie(self):
        """Half of the votes are enough beside the node that breaks ties, the first of the order that was in the last view of a majority."""
        if self.settings.tie is None or 2 * self.view_votes() != self.expected:
            return False
        node = next((rank for rank in self.settings.tie if rank in self.majority), None)
        return node in self.view.members


class Fencing:
    """What a node knows of the slots and the mailboxes of the nodes outside its view: each counts only in the out-time of its node."""

    def __init__(self, count):
        self.since = [0] * count  # the place after which the out-time of a rank begins
        self.end(range(count), 0)

    def end(self, ranks, place):
        """The out-time of these ranks begins anew."""
        if place == 0:
            self.seen, self.clean, self.written = set(), set(), {}
        for rank in ranks:
            self.since[rank] = place
            self.seen.discard(rank)
            self.clean.discard(rank)
            self.written.pop(rank, None)

    def on_slot(self, asked, rank, slot):
        if asked.place > self.since[rank] and slot != FAILED:
            self.seen.add(rank)
            if slot != DAMAGED and slot.is_clean:
                self.clean.add(rank)

    def on_reset(self, asked, rank, tick, ok):
        if asked.place > self.since[rank] and ok:
            self.written[rank] = tick

    def is_licensed(self, rank, tick, msgwait):
        return rank in self.clean or rank in self.written and self.written[rank] + msgwait <= tick


class Core:
    """One node: `step` takes what it is handed and gives its outputs."""

    def __init__(self, settings, me):
        self.settings, self.me = settings, me
        self.ranks = range(len(settings.ids))
        self.count, self.fencing = Count(settings), Fencing(len(settings.ids))
        self.phase, self.times, self.incarnation, self.is_clean_start = "booting", None, None, False
        self.slot_number = 0  # the incarnation of the own slot as it was read
        self.tick = self.place = self.mail_tick = self.installs = 0
        self.out = None  # the operation that is out
        self.free, self.held = set(), set()  # who answered under this view that it does not hold, and that it does
        self.moment = None  # the tick of the last asking moment
        self.holds, self.stopping, self.stop_failed = False, False, None

    # ---- what comes

    def step(self, tick, entry):
        """The outputs of an entry at a tick."""
        before, asked = self.phase, self.out
        entry = entry if self.fits(entry) else Entry("tick")
        self.tick, self.place = tick, self.place + 1
        if entry.kind in ANSWERS:
            self.out = None
        self.count.take(tick, *self.vote_of(entry))
        self.take(entry, asked)
        if before == "booting":
            outs = self.boot_outs(entry)
        else:
            outs = self.live_outs(entry, asked) if before in ("up", "leaving") else []
        for out in outs:
            self.note(out)
        return outs

    def fits(self, entry):
        if entry.kind == "view":
            return self.is_live() and self.me in entry.given.members and max(entry.given.members) in self.ranks
        if entry.kind in ("ask", "tell"):
            sender = entry.given.sender
            return self.is_live() and entry.given.to == self.me and sender in self.ranks and sender != self.me
        return self.is_live() if entry.kind == "device" else self.phase == "up" if entry.kind == "leave" else True

    def is_live(self):
        return self.phase in ("up", "leaving")

    def vote_of(self, entry):
        """What an entry is to the count of votes."""
        if entry.kind in ("view", "device"):
            return entry
        is_released = entry.kind == "tell" and self.answers(entry.given) and entry.given.released
        return ("released" if is_released else "tick"), None

    def answers(self, tell):
        return (tell.incarnation, tell.install, tell.view) == (self.incarnation, self.installs, self.count.view)

    def take(self, entry, asked):
        kind, given = entry
        if kind == "begin":
            self.is_clean_start = given
        elif kind in ANSWERS:
            self.take_answer(kind, given, asked)
        elif kind == "view":
            self.installs += 1
            self.free, self.held = set(), set()
            self.fencing.end(given.members, self.place)
        elif kind == "tell" and self.answers(given):
            (self.held if given.holds else self.free).add(given.sender)
        elif kind == "leave":
            self.phase = "leaving"
        elif kind == "stopped":
            self.stopping, self.stop_failed = False, None if given else self.tick
            self.holds = self.holds and not given

    def take_answer(self, kind, given, asked):
        if self.phase == "booting":
            self.take_boot(kind, given)
        elif kind == "slot":
            self.fencing.on_slot(asked, asked.operation.of, given)
        elif kind == "written":
            self.fencing.on_reset(asked, asked.operation.of, self.tick, given)
        elif kind == "mail" and given in DEADLY:
            self.phase = "dying"
        elif kind == "mail" and given == "exit" and self.is_in_time(asked):
            self.phase = "leaving"
        elif kind == "closed":
            self.phase = "gone"

    def is_in_time(self, asked):
        return self.tick <= asked.tick + self.times.read_limit

    # ---- the boot

    def take_boot(self, kind, given):
        self.halts_with = self.boot_halt(kind, given)
        if self.halts_with:
            self.phase = "gone"
        elif kind == "header":
            self.times = given.times
        elif kind == "slot":
            self.slot_number = given.incarnation
        elif kind == "claimed":
            self.incarnation = self.slot_number + 1
        elif kind == "cleared":
            self.phase = "up"
            self.fencing.end(self.ranks, self.place)

    def boot_halt(self, kind, given):
        """The cause for which a step of the boot halts it, or None."""
        if kind in ("claimed", "cleared"):
            return None if given else {"claimed": CLAIM_FAILED, "cleared": CLEAR_FAILED}[kind]
        if given == FAILED:
            return READ_FAILED
        if given == DAMAGED:
            return NOT_IMAGE
        if isinstance(given, Header):
            return NOT_IMAGE if given.nodes != len(self.settings.ids) else None if is_safe(given.times) else UNSAFE
        if isinstance(given, Slot):
            return None if given.incarnation < 2 ** 64 - 1 else INCARNATION_SPENT
        return None if given in ("empty", "exit") else NOT_CLEAN

    def boot_outs(self, entry):
        if entry.kind == "begin":
            return [Out("disk", Operation("header"))]
        if entry.kind not in ANSWERS:
            return []
        if self.halts_with:
            return [Out("halt", self.halts_with)]
        after_slot = Operation("check") if entry.kind == "slot" and self.is_clean_start else Operation("claim", self.slot_number + 1)
        following = {"header": Operation("slot", self.me), "slot": after_slot, "check": after_slot, "claimed": Operation("clear"),
                     "cleared": Operation("mail")}
        return [Out("feed"), Out("disk", following[entry.kind])]

    # ---- a node that takes part

    def live_outs(self, entry, asked):
        if entry.kind == "mail" and entry.given in DEADLY:
            return [Out("halt", entry.given)]
        if entry.kind == "closed":
            return [Out("disarm")]
        quorate, starts = self.count.is_quorate(self.tick), self.why()[0] == "clear"
        outs = [Out("stop")] if self.gives_stop(quorate) else []
        outs += [Out("start")] if starts else []
        outs += [Out("feed")] if entry.kind == "mail" and entry.given not in (FAILED, DAMAGED) and self.is_in_time(asked) else []
        outs += self.replies(entry, starts or self.holds) + self.asks(entry)
        operation = self.wanted(quorate)
        return outs + ([Out("disk", operation)] if operation else [])

    def note(self, out):
        if out.kind == "disk":
            self.out = Asked(out.of, self.place, self.tick)
            if out.of.kind == "mail":
                self.mail_tick = self.tick
        elif out.kind == "stop":
            self.stopping = True
        elif out.kind == "start":
            self.holds, self.stopping, self.stop_failed = True, False, None

    def gives_stop(self, quorate):
        waits = self.stopping or self.stop_failed is not None and self.tick < self.stop_failed + self.times.loop
        is_to_stop = self.phase == "leaving" or not quorate or gives_away(self.count.view, self.me)
        return self.holds and is_to_stop and not waits

    def replies(self, entry, held):
        """The answer to an Ask of another member under the present view."""
        if entry.kind != "ask" or entry.given.view != self.count.view or entry.given.sender not in self.count.view.members:
            return []
        ask = entry.given
        return [Out("send", (ask.sender, Tell(self.me, ask.sender, ask.incarnation, ask.install, ask.view, held, self.count.released)))]

    def asks(self, entry):
        """The Asks of an asking moment."""
        is_moment = entry.kind == "view" or self.moment is not None and self.moment + self.times.loop <= self.tick
        if self.phase != "up" or not is_moment:
            return []
        self.moment = self.tick
        asked = [rank for rank in self.others() if not self.count.released or rank not in self.free]
        return [Out("send", (rank, Ask(self.me, rank, self.incarnation, self.installs, self.count.view))) for rank in asked]

    def others(self):
        return [rank for rank in self.count.view.members if rank != self.me] if self.count.view else []

    def outside(self):
        return [rank for rank in self.ranks if rank not in self.count.view.members]

    def wanted(self, quorate):
        """The next operation of the disk, where none is out."""
        if self.out is not None:
            return None
        if self.mail_tick + self.times.loop <= self.tick:
            return Operation("mail")
        if self.phase == "leaving" and not self.holds:
            return Operation("close", self.incarnation)
        if self.phase == "up" and quorate and chosen_of(self.count.view) == self.me:
            return self.fences()
        return None

    def fences(self):
        """The read of the next slot, else the next reset, once its delay is over."""
        unread = [rank for rank in self.outside() if rank not in self.fencing.seen]
        if unread:
            return Operation("slot", unread[0])
        unwritten = [rank for rank in self.outside() if rank not in self.fencing.clean and rank not in self.fencing.written]
        if unwritten and self.count.view_tick + self.settings.delays[unwritten[0]] <= self.tick:
            return Operation("reset", unwritten[0])
        return None

    # ---- what it says of itself

    def why(self):
        """The first condition that blocks a start at the tick of the last entry: its word, and what it names."""
        if self.phase != "up":
            return ("down",)
        if self.holds:
            return ("holding",)
        if self.count.view is None:
            return ("no-view",)
        if not self.count.released:
            return ("wait-for-all",)
        if not self.count.is_quorate(self.tick):
            return "not-quorate", "%d/%d" % (self.count.votes(self.tick), self.count.quorum())
        chosen = chosen_of(self.count.view)
        if chosen != self.me:
            return "not-chosen", 0 if chosen is None else self.settings.ids[chosen]
        return self.lacks()

    def lacks(self):
        """What of the other nodes blocks a start of one that is quorate and chosen."""
        held = [rank for rank in self.others() if rank in self.held and rank not in self.free]
        unheard = [rank for rank in self.others() if rank not in self.held and rank not in self.free]
        unfenced = [rank for rank in self.outside() if not self.fencing.is_licensed(rank, self.tick, self.times.msgwait)]
        if held:
            return "held-by", self.settings.ids[held[0]]
        if unheard:
            return "unheard", self.settings.ids[unheard[0]]
        if not unfenced:
            return ("clear",)
        written = self.fencing.written.get(unfenced[0])
        return "unfenced", self.settings.ids[unfenced[0]], "unwritten" if written is None else written + self.times.msgwait - self.tick

    def stands(self):
        """The words of the line that a run ends with after its last turn."""
        phase = {"gone": "off"}.get(self.phase, self.phase)
        truth = {True: "yes", False: "no"}
        return "%s holds=%s quorate=%s %d/%d why=%s" % (
            phase, truth[self.holds], truth[self.count.is_quorate(self.tick)], self.count.votes(self.tick), self.count.quorum(),
            ":".join(map(str, self.why())))
