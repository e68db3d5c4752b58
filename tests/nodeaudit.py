"""Whether a log is a run of a node, by the second program: the outside answers from the log alone, until a call is another one than that of its
next line."""
from nodebytes import SECTOR, settings_of
from nodeoutsides import NOTHING, words_of
from noderuns import Run


class AnotherCall(Exception):
    """A call that is not that of the next line of the log, or one behind the last line."""


class FromLog:
    """An outside that answers each call as the next line of a log does. `place` is how many lines were used."""

    def __init__(self, lines):
        self.lines, self.place = lines, 0

    def answer(self, call):
        """What the next line says of this call."""
        if self.place == len(self.lines) or not (self.lines[self.place] + " ").startswith(call + " "):
            raise AnotherCall
        self.place += 1
        return self.lines[self.place - 1][len(call) + 1:]

    def now(self):
        return int(self.answer("now"))

    def receive(self):
        gave = self.answer("receive")
        return NOTHING if gave in ("nothing", "failed") else bytes.fromhex(gave.replace("-", ""))

    def read(self, sector):
        gave = self.answer("read %d" % sector)
        return None if gave == "failed" else bytes.fromhex(gave).ljust(SECTOR, b"\0")

    def write(self, sector, data):
        return self.answer("write %d %s" % (sector, data.hex())) == "ok"

    def send(self, rank, data):
        return self.answer("send %d %s" % (rank, data.hex())) == "ok"

    def feed(self):
        return self.answer("feed") == "ok"

    def resource(self, order):
        return self.answer(order) == "ok"

    def disarm(self):
        return self.answer("disarm") == "ok"

    def halt(self, code):
        self.answer("halt %d" % code)


def audited(text, words, run=Run):
    """What `audit` says of a log behind its settings text, both whole lines: `run whole turns N`, `run prefix turns N` or `fault NotARun line N`."""
    settings, _, log = text.partition("----\n")
    outside = FromLog(log.splitlines())
    try:
        run(settings_of(settings), words_of(words), outside).played()
        kind = "whole"
    except AnotherCall:
        kind = "prefix"
    if outside.place < len(outside.lines):
        return "fault NotARun line %d" % (settings.count("\n") + outside.place + 2)
    return "run %s turns %d" % (kind, turns_in(outside.lines))


def turns_in(lines):
    return sum(line.startswith("now ") for line in lines)
