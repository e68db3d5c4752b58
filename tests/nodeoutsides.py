"""Outsides of a running node, and the cases that drive them: a node meets the sectors, ticks, packets and failures of a recorded run again, turn by
turn, whatever other calls it makes now."""
import re
from collections import Counter, namedtuple

from nodebytes import SECTOR
from noderuns import Words

# A recorded run: its name, what it shows, its settings text, its words, the sectors before it, the writes of others by the line of the log before
# whose answer they come, its log, and its end.
Case = namedtuple("Case", "name about settings words sectors changes log line status")

NOTHING = b""


def case_of(path):
    """The case of a file."""
    head, _, text = path.read_text().partition("\n====\n")
    settings, _, log = text.partition("----\n")
    fields = [line.split(" ", 1) for line in head.splitlines()]
    told = dict(fields)
    sectors = dict(sector_of(field[1]) for field in fields if field[0] == "sector")
    changes = [(int(number), sector_of(rest)) for number, rest in (field[1].split(" ", 1) for field in fields if field[0] == "change")]
    return Case(path.name, told.get("about"), settings, words_of(told["words"]), sectors, changes, log.splitlines(), told["end"], int(told["status"]))


def sector_of(words):
    number, digits = words.split()
    return int(number), bytes.fromhex(digits.replace("-", "")).ljust(SECTOR, b"\0")


def words_of(text):
    options = dict(zip(text.split()[::2], text.split()[1::2]))
    leave = options.get("--leave")
    return Words(int(options["--id"]), int(options["--turns"]), leave and int(leave), options.get("--start-mode") == "1")


class Outside:
    """A disk, a clock and a network in memory: the ticks one after the other, the last one again and again; the packets, and then none. It logs
    each call with its answer."""

    def __init__(self, sectors, ticks, packets):
        self.sectors, self.ticks, self.packets = dict(sectors), list(ticks), list(packets)
        self.log, self.turns, self.calls, self.last = [], 0, 0, 0

    # ---- which call fails, and who else writes

    def fails(self, _call):
        """Whether this call fails, by the words of its line without the answer."""
        return False

    def before_answer(self, call):
        """What others do before a call is answered."""

    def is_done(self, call):
        """Whether a call succeeds; it is counted."""
        self.calls += 1
        self.before_answer(call)
        return not self.fails(call)

    # ---- the calls

    def now(self):
        if self.ticks:
            self.last = self.ticks.pop(0)
        self.log.append("now %d" % self.last)
        self.turns += 1
        return self.last

    def receive(self):
        if not self.is_done("receive"):
            self.log.append("receive failed")
            return NOTHING
        packet = self.packets.pop(0) if self.packets else None
        self.log.append("receive " + ("nothing" if packet is None else packet.hex() or "-"))
        return packet or NOTHING

    def read(self, sector):
        call = "read %d" % sector
        data = self.sectors.get(sector, bytes(SECTOR)) if self.is_done(call) else None
        self.log.append("%s %s" % (call, "failed" if data is None else data.hex()))
        return data

    def write(self, sector, data):
        is_done = self.answered("write %d %s" % (sector, data.hex()))
        if is_done:
            self.sectors[sector] = data
        return is_done

    def send(self, rank, data):
        return self.answered("send %d %s" % (rank, data.hex()))

    def feed(self):
        return self.answered("feed")

    def resource(self, order):
        return self.answered(order)

    def disarm(self):
        return self.answered("disarm")

    def halt(self, code):
        self.log.append("halt %d" % code)

    def answered(self, call):
        is_done = self.is_done(call)
        self.log.append("%s %s" % (call, "ok" if is_done else "failed"))
        return is_done


class NthFails(Outside):
    """One whose call of one number fails, counted over all but `now` and `halt`; 0: none."""

    def __init__(self, sectors, ticks, packets, number):
        super().__init__(sectors, ticks, packets)
        self.number = number

    def fails(self, _call):
        return self.calls == self.number


class Quiet(Outside):
    """One whose clock reads ten milliseconds more at each look, over an image that was made for the settings. Nothing comes."""

    def now(self):
        self.ticks = [10 * self.turns]
        return super().now()


class Again(Outside):
    """The outside of a recorded run: a call fails, and others write, where they did in the turn in which the record has that call."""

    def __init__(self, case):
        super().__init__(case.sectors, ticks_in(case.log), packets_in(case.log))
        self.failing, self.writes, self.met = set(), [], Counter()
        counted = Counter()
        changes = dict(case.changes)
        for number, (turn, line) in enumerate(turns_of(case.log), 1):
            key = turn, *kind_of(line)
            counted[key] += 1
            if line.endswith(" failed"):
                self.failing.add((key, counted[key]))
            if number in changes:
                self.writes.append((key, *changes[number]))

    def key(self, call):
        return self.turns + (call == "receive"), *kind_of(call)

    def fails(self, call):
        return (self.key(call), self.met[self.key(call)]) in self.failing

    def before_answer(self, call):
        key = self.key(call)
        self.met[key] += 1
        while self.writes and (self.writes[0][0][0] < key[0] or self.writes[0][0] == key):
            _, sector, data = self.writes.pop(0)
            self.sectors[sector] = data


def turns_of(log):
    """The lines of a log, each with the number of its turn, which begins with what is received or with a look at the clock."""
    turn = 0
    for line in log:
        is_received = line.startswith("receive ")
        turn += line.startswith("now ")
        yield turn + is_received, line


def kind_of(call):
    """What a call is and what it is of: of a packet its kind and its receiver, of a sector that sector."""
    words = call.split(" ")
    if words[0] == "send":
        return "send", words[1], {"03": "08", "0b": "04"}.get(words[2][4:6], words[2][4:6])
    return words[0], words[1] if words[0] in ("read", "write") else ""


def ticks_in(log):
    return [int(line[4:]) for line in log if line.startswith("now ")]


def packets_in(log):
    """What was received, None for nothing; a receive that failed used up none."""
    received = [re.fullmatch("receive (.*)", line) for line in log]
    gave = [line[1] for line in received if line and line[1] != "failed"]
    return [None if words == "nothing" else bytes.fromhex(words.replace("-", "")) for words in gave]
