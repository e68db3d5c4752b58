"""Plays a test on the hosts, and lets the judge say what came of it."""
import time

from . import tests
from .evidence import carried_out, on
from .judge import NOT_JUDGED, SAME, Bound, Evidence, cuts_of, first_owner, holdings_of, judge, lost_of, next_owner, reset_took, silence_of, verdict_of
from .preflight import why_not_up
from .record import Outcome

SETTLE = 3.0  # seconds that are looked at before the fault
MOST_WAIT = 300.0
HANDS = 180.0  # seconds for what is done by hand


class Unready(Exception):
    """A test cannot be played now: why."""


class Player:
    """Plays tests: `nodes` has the number of the node of each host, `ask` asks the operator, `say` tells what is done."""

    def __init__(self, plan, bed, times, nodes, operator, slow):
        self.plan, self.bed, self.times, self.nodes, self.operator, self.slow = plan, bed, times, nodes, operator, slow
        self.undone, self.judged = [], 0.0

    def await_(self, limit, what, pause=0.2):
        """Waits until what() is true; whether it became so."""
        end = time.monotonic() + limit
        while time.monotonic() < end:
            if what():
                return True
            time.sleep(pause)
        return False

    def unready(self):
        """Why the cluster is not ready for a test, or nothing."""
        owners = self.bed.owners()
        if len(owners) != 1:
            return "%s has all resources" % (" and ".join(owners) or "no host")
        for host in self.plan.hosts():
            answer = on(self.plan, host, "cat \"${ROOT-}/run/quorumd/node-%s.json\"" % self.nodes[host], 10)
            why = why_not_up(answer.text, len(self.plan.hosts())) if answer.ok() else "cannot be asked"
            if why:
                return "%s: %s" % (host, why)
        return ""

    def ready(self, limit=MOST_WAIT):
        if not self.await_(limit, lambda: not self.unready(), 1.0):
            raise Unready("the cluster is not ready: %s" % self.unready())

    def bed_now(self, slow):
        numbers = self.plan.numbers
        return tests.bounds.Bed(self.plan.hosts(), self.plan.witnesses(), numbers["stop"], numbers["start"], numbers["monitor"], numbers["firmware"], slow)

    def play(self, test, host):
        """The outcome of a test on a host."""
        when = time.strftime("%Y-%m-%d %H:%M:%S UTC", time.gmtime())
        try:
            self.ready()
            slow = self.slow()
            evidence, wanted = self.seen(test, host, slow)
        except Unready as why:
            self.take_back()
            return Outcome(test.name, host, NOT_JUDGED, ["%s: %s" % (NOT_JUDGED, why)], [], {}, when)
        findings = judge(evidence, wanted)
        return Outcome(test.name, host, verdict_of(findings), [finding.text for finding in findings], story_of(evidence, wanted, slow), figures_of(evidence, wanted), when)

    def seen(self, test, host, slow):
        """Plays it: what was seen, and what was wanted."""
        time.sleep(SETTLE)
        begin = time.monotonic() - SETTLE
        self.await_(10, lambda: len(self.bed.owners()) == 1)
        owner = self.bed.owners()[0] if self.bed.owners() else None
        if owner is None:
            raise Unready("no host is seen to have all resources")
        if (test.where == tests.OWNER and owner != host) or (test.where == tests.STANDBYS and owner == host):
            raise Unready("the resources moved by themselves")
        victims = self.plan.hosts() if test.where == tests.ALL else (host,)
        boots = {victim: self.bed.newest[victim].boot for victim in self.plan.hosts()}
        fault = self.fault(test, victims)
        wanted = test.wanted(self.times, self.bed_now(slow), host, fault)
        self.afterwards(test, boots, wanted, owner)
        end = time.monotonic()
        samples, rows = self.bed.since(begin, end), self.bed.rows_since(self.judged, end)
        self.judged = end
        found = None if rows is None else self.bed.found(slow * self.plan.numbers["start"] + SETTLE)
        evidence = Evidence(self.plan.hosts(), tuple(self.plan.signs), samples, begin, end, rows, found, {host: self.was_orderly(host)} if test.orderly else {})
        return evidence, wanted

    def fault(self, test, victims):
        """Does what the test does, and says when it was done."""
        if test.hand and not tests.has_commands(test, self.plan):
            return self.by_hand(test, victims)
        self.operator.say("the fault: %s on %s" % (test.name, " ".join(victims)))
        began = time.monotonic()
        for victim in victims:
            if test.hand:
                self.undone.append((test.hand, victim))
                answer = carried_out(self.plan.command(test.hand, victim), 60, shell=True)
            else:
                if test.undo:
                    self.undone.append((test.undo, victim))
                answer = on(self.plan, victim, tests.filled(test.deed, self.plan, victim, self.nodes.get(victim, "")), 5)
            if answer.status not in (0, None, 255) and (test.hand or not test.ends):
                raise Unready("%s: %s" % (victim, (answer.errors or answer.text).strip() or "status %s" % answer.status))
        return began

    def by_hand(self, test, victims):
        """What the operator does: the fault is the last look at a machine, or where it is looked at by another way the word of the operator."""
        self.undone += [(test.hand, victim) for victim in victims]
        self.operator.tell("Now %s, within %d seconds" % (tests.filled(test.asked, self.plan, victims[0], ""), HANDS))
        boots = {victim: self.bed.newest[victim].boot for victim in victims}
        if not self.await_(HANDS, lambda: all(not self.bed.is_seen(victim) for victim in victims)):
            raise Unready("%s was in sight for %d seconds, so nothing was pulled" % (" and ".join(victims), HANDS))
        return max(self.bed.last_of(victim, boot) for victim, boot in boots.items())

    def is_as_before(self, boots, wanted):
        """Whether a host that was to be reset in sight was not: nothing more comes."""
        return any(reset.in_sight and self.bed.is_seen(host) and self.bed.newest[host].boot == boots[host] for host, reset in wanted.resets.items())

    def afterwards(self, test, boots, wanted, owner):
        """Waits for the next owner, takes back what was done, and waits until all are there."""
        if wanted.owner == SAME:
            time.sleep(2 * self.times.watchdog if wanted.resets else 6 * self.times.loop + 4)
        elif test.where != tests.ALL:
            most = wanted.start.most if wanted.start else wanted.gap + self.bed_now(1.0).stop
            self.await_(most + 2 * SETTLE, lambda: any(other != owner for other in self.bed.owners()))
        else:
            time.sleep(10.0)
        self.take_back()
        if self.is_as_before(boots, wanted):
            return
        limit = self.plan.numbers["firmware"] + MOST_WAIT
        if not self.await_(limit, lambda: not self.unready(), 1.0):
            self.operator.tell("%s after %d seconds: %s" % (test.name, limit, self.unready()))

    def take_back(self):
        """Ends what lasts: the power, the cable, the disk, an arbiter that was stopped."""
        while self.undone:
            deed, victim = self.undone.pop()
            command = self.plan.command(deed + "-back", victim)
            if " " in deed:
                on(self.plan, victim, tests.filled(deed, self.plan, victim, ""), 30)
            elif command:
                carried_out(command, 60, shell=True)
            else:
                self.operator.tell("Now %s" % tests.filled(tests.BACK[deed], self.plan, victim, ""))

    def was_orderly(self, host):
        """Whether the journal of the boot before says that the node left in order; None where there is none."""
        answer = on(self.plan, host, "journalctl -b -1 -o cat -u quorumd@%s.service 2> /dev/null" % self.nodes[host], 60)
        return "event=disarm ok=yes" in answer.text if answer.ok() and answer.text.strip() else None


def story_of(evidence, wanted, slow):
    """What was seen, in the order of time, in seconds from the fault."""
    lines = [(holding.first, "%s has resources from %+.1f to %+.1f s" % (holding.host, holding.first - wanted.fault, holding.last - wanted.fault)) for holding in holdings_of(evidence.samples, evidence.resources)]
    for host in evidence.hosts:
        for one, two in cuts_of(evidence, host, wanted.fault):
            lines.append((one.last, "%s: its boot was last seen at %+.1f s, the next one began at %+.1f s" % (host, one.last - wanted.fault, two.began - wanted.fault)))
    told = ["wanted: %s" % text for text in wants_of(wanted)]
    return [text for _, text in sorted(lines)] + told + ["load: a fixed loop took %.1f times as long as alone" % slow]


def bound_text(bound):
    words = [text % value for text, value in (("from %.1f s", bound.least), ("to %.1f s", bound.most)) if value is not None]
    return " ".join(words) or "at any time"


def wants_of(wanted):
    yield "%s owner" % wanted.owner
    for host, reset in sorted(wanted.resets.items()):
        yield "%s reset %s after the fault" % (host, bound_text(reset.bound))
    if wanted.start:
        yield "the next owner %s after %s" % (bound_text(wanted.start), "the fault" if wanted.seen is None else "%d hosts are back" % wanted.seen)
    if wanted.gap is not None:
        yield "at most %.1f s between two owners, or without the service" % wanted.gap
    if wanted.silence is not None:
        yield "at most %.1f s without a row" % wanted.silence


def figures_of(evidence, wanted):
    """What was measured."""
    figures, old = {}, first_owner(evidence, wanted)
    if wanted.owner != SAME and old:
        new = next_owner(evidence, wanted)
        figures["without_owner"] = round(new.first - old.last, 2) if new else None
    for host, reset in wanted.resets.items():
        cuts = cuts_of(evidence, host, wanted.fault)
        if cuts and reset.bound != Bound(0.0, None):
            figures["reset"] = round(reset_took(cuts[0], reset, wanted.fault), 2)
    if evidence.rows:
        figures["acknowledged"], figures["silence"] = len(evidence.rows), round(silence_of(evidence), 2)
        figures["lost"] = len(lost_of(evidence)) if evidence.found is not None else None
    return figures
