"""The judge of quorumd-acceptance, and of the labs that are played before a release: what was seen in one test, against what has to be so. It has neither clock nor
host. Times are seconds of the one clock of the machine that runs the tests; nothing that a node says of itself counts."""
from collections import namedtuple
from dataclasses import dataclass, field

# a look at a host: when its line came, which boot of the host it was and when that began, and which of its resources were there
Sample = namedtuple("Sample", "when host boot began signs")
Holding = namedtuple("Holding", "host boot first last")
Life = namedtuple("Life", "boot began first last")
# a reset of a host that was seen by itself
Ended = namedtuple("Ended", "when host")
# a row that was acknowledged, and when
Row = namedtuple("Row", "when number")
# how long after the fault, at the least and at the most; None: not asked
Bound = namedtuple("Bound", "least most")
Finding = namedtuple("Finding", "verdict text")

PASSED, FAILED, NOT_JUDGED = "passed", "FAILED", "not judged"
OTHER, SAME, ANY, NO_OTHER = "another", "the same", "any", "no other"
HOLE = 2.0  # seconds for which a host may be out of sight within one boot
SIGHT = 0.5  # between two looks, and what the way to this machine adds


@dataclass(frozen=True)
class Reset:
    """When a host is to be reset: where it was out of sight from the fault on, its next boot begins at most `firmware` later. It may be out of sight in between
    where `in_sight` is false: its power, its network or its services end before it does. `times` is how often."""
    bound: Bound
    firmware: float = 0.0
    in_sight: bool = True
    times: Bound = Bound(1, 1)


NEVER = Reset(Bound(None, None), times=Bound(0, 0))


@dataclass(frozen=True)
class Wanted:
    """What a test is to show. `start` is the first sign of the next owner after the fault, `gap` the most between the last sign of the old owner and that
    (of the same owner: the most without the service), `silence` the most without an acknowledged row. An owner that went out of sight with its resources has
    `stop` more. A host in `barred` never holds. Where `seen` is a number, `start` counts from when so many hosts are back. Where `owner` is None nothing is asked
    of it; `holder` is who held before the fault, where that is not to be told by what was seen."""
    fault: float
    owner: str = None
    resets: dict = field(default_factory=dict)
    start: Bound = None
    gap: float = None
    silence: float = None
    barred: tuple = ()
    seen: int = None
    stop: float = 0.0
    holder: str = None


@dataclass(frozen=True)
class Sight:
    """How well hosts are seen: a host may have had a resource for `margin` seconds before it was first seen with it and after the last time; it may be out of sight for
    `hole` seconds within one boot; and where `whole` is true it is to be in sight from the beginning to the end."""
    margin: float = 0.0
    hole: float = HOLE
    whole: bool = True


@dataclass(frozen=True)
class Evidence:
    """What was seen of the hosts from `begin` to `end`, and the rows that were acknowledged since the last test. `found` are the rows that the database has at the end, None where it did not answer; `rows` is None
    where no rows are written. `orderly` says of each host that was to stop in order whether its journal of that boot says so, None where it has none. `ends` are the resets where they were seen by themselves,
    None where only the boots tell them."""
    hosts: tuple
    resources: tuple
    samples: tuple
    begin: float
    end: float
    rows: tuple = None
    found: frozenset = None
    orderly: dict = field(default_factory=dict)
    ends: tuple = None
    sight: Sight = Sight()


def failed(text, *values):
    return Finding(FAILED, text % values)


def not_judged(text, *values):
    return Finding(NOT_JUDGED, text % values)


def lives_of(samples, host):
    """The boots of a host, in their order."""
    found = {}
    for sample in samples:
        if sample.host == host:
            before = found.get(sample.boot)
            first, began = (before.first, min(before.began, sample.began)) if before else (sample.when, sample.began)
            found[sample.boot] = Life(sample.boot, began, first, sample.when)
    return sorted(found.values(), key=lambda life: life.first)


def holdings_of(samples, resources):
    """The stretches in which any of these resources was there, of each host and boot, in the order in which they began."""
    done, open_ = [], {}
    for sample in samples:
        key = (sample.host, sample.boot)
        if sample.signs.isdisjoint(resources):
            if key in open_:
                done.append(open_.pop(key))
        else:
            first = open_[key].first if key in open_ else sample.when
            open_[key] = Holding(sample.host, sample.boot, first, sample.when)
    return sorted(done + list(open_.values()), key=lambda holding: (holding.first, holding.host))


def overlaps(evidence):
    """Each resource signs for itself: an address on one host beside a file system on another are two owners too."""
    held = holdings_of(evidence.samples, evidence.resources)
    for place, one in enumerate(held):
        for two in held[place + 1:]:
            if one.host != two.host and two.first <= one.last + 2 * evidence.sight.margin:
                yield failed("TWO OWNERS: %s until %.1f s, %s from %.1f s", one.host, one.last - evidence.begin, two.host, two.first - evidence.begin)


def hole_of(evidence, host, wanted):
    """The longest time for which a host was out of sight within one boot, but for one that is being ended out of sight."""
    holes = [0.0]
    lives = lives_of(evidence.samples, host)
    ends = host in wanted.resets and not wanted.resets[host].in_sight
    for life in lives:
        seen = [sample.when for sample in evidence.samples if sample.host == host and sample.boot == life.boot]
        holes += [after - before for before, after in zip(seen, seen[1:]) if not (ends and life.first <= wanted.fault < after)]
    edges = [lives[0].first - evidence.begin, evidence.end - lives[-1].last] if evidence.sight.whole else []
    return max(holes + edges)


def unseen(evidence, wanted):
    """A host that nobody looked at may have had anything."""
    for host in evidence.hosts:
        if not lives_of(evidence.samples, host):
            yield not_judged("%s was never seen", host)
        elif hole_of(evidence, host, wanted) > evidence.sight.hole:
            yield not_judged("%s was out of sight for %.1f s within one boot", host, hole_of(evidence, host, wanted))


def cuts_of(evidence, host, fault):
    """The ends of boots of a host since the fault: that boot, and the next one."""
    lives = lives_of(evidence.samples, host)
    return [(one, two) for one, two in zip(lives, lives[1:]) if one.last >= fault - 1]


def reset_took(cut, reset, fault):
    """How long after the fault a boot ended, as far as it was seen."""
    one, two = cut
    if reset.firmware and one.last <= fault + HOLE:
        return max(0.0, two.began - reset.firmware - fault)
    return max(0.0, one.last - fault)


def resets_of(evidence, host, reset, fault):
    """How long after the fault each reset of a host was."""
    if evidence.ends is not None:
        return [end.when - fault for end in evidence.ends if end.host == host and end.when >= fault]
    return [reset_took(cut, reset, fault) for cut in cuts_of(evidence, host, fault)]


def resets(evidence, wanted):
    """Who is to be reset is, in time and no more often than it may; nobody else is."""
    for host in evidence.hosts:
        reset = wanted.resets.get(host, NEVER)
        took = resets_of(evidence, host, reset, wanted.fault)
        if took and reset is NEVER:
            yield failed("%s was reset", host)
        elif len(took) < reset.times.least:
            yield failed("%s was NOT RESET", host)
        elif took:
            yield from reset_in_time(host, took[0], reset.bound)
            if reset.times.most is not None and len(took) > reset.times.most:
                yield failed("%s was reset %d times", host, len(took))


def reset_in_time(host, took, bound):
    if bound.most is not None and took > bound.most:
        yield failed("%s was reset %.1f s after the fault, and %.1f is the most", host, took, bound.most)
    if bound.least is not None and took < bound.least:
        yield failed("%s was reset %.1f s after the fault, and %.1f is the least", host, took, bound.least)


def first_owner(evidence, wanted):
    """The last holding that began before the fault, if any."""
    before = [holding for holding in holdings_of(evidence.samples, evidence.resources) if holding.first <= wanted.fault]
    return before[-1] if before else None


def holder_of(evidence, wanted):
    """The host that held before the fault, if any."""
    old = first_owner(evidence, wanted)
    return wanted.holder or (old.host if old else None)


def next_owner(evidence, wanted):
    """The first holding after the fault, of another host than before where that is wanted."""
    old = holder_of(evidence, wanted)
    for holding in holdings_of(evidence.samples, evidence.resources):
        if holding.first > wanted.fault and (wanted.owner == ANY or holding.host != old):
            return holding
    return None


def counted_from(evidence, wanted):
    """From when a start counts: where too few hosts came back, from the end."""
    if wanted.seen is None:
        return wanted.fault
    back = sorted(cuts[0][1].first for cuts in (cuts_of(evidence, host, wanted.fault) for host in evidence.hosts) if cuts)
    return back[wanted.seen - 1] if len(back) >= wanted.seen else evidence.end


def most_gap(evidence, wanted, old):
    """The most between the last sign of the old owner and the first of the next one."""
    lives = [life for life in lives_of(evidence.samples, old.host) if life.boot == old.boot]
    return wanted.gap + (wanted.stop if old.last == lives[0].last else 0.0)


def taken_over(evidence, wanted):
    """Another host, or any where all were off, has the resources: not too early, and not too late."""
    old, new = first_owner(evidence, wanted), next_owner(evidence, wanted)
    if new is None:
        yield failed("NOBODY TOOK OVER")
        return
    if wanted.gap is not None and new.first - old.last > most_gap(evidence, wanted, old):
        yield failed("%s took over after %.1f s, and %.1f is the most", new.host, new.first - old.last, most_gap(evidence, wanted, old))
    if wanted.start is None:
        return
    since, after = new.first - counted_from(evidence, wanted), "the fault" if wanted.seen is None else "enough hosts were back"
    if wanted.start.least is not None and since < 0:
        yield failed("%s took over before enough hosts were back", new.host)
    elif wanted.start.least is not None and since < wanted.start.least:
        yield failed("%s took over %.1f s after %s, and nobody may within %.1f", new.host, since, after, wanted.start.least)
    if wanted.start.most is not None and since > wanted.start.most:
        yield failed("%s took over %.1f s after %s, and %.1f is the most", new.host, since, after, wanted.start.most)


def no_other(evidence, wanted):
    """Nobody but the owner has the resources."""
    old, held = holder_of(evidence, wanted), holdings_of(evidence.samples, evidence.resources)
    for other in sorted({holding.host for holding in held if holding.host != old and holding.first > wanted.fault}):
        yield failed("%s took over, and %s", other, "%s was to go on" % old if wanted.owner == SAME else "nobody was to")


def went_on(evidence, wanted):
    """The same host has the resources, and the service, which is the last of them, was away no longer than it may."""
    yield from no_other(evidence, wanted)
    old = first_owner(evidence, wanted)
    held = holdings_of(evidence.samples, evidence.resources)
    if evidence.end - max(holding.last for holding in held if holding.host == old.host) > HOLE:
        yield failed("nobody holds at the end")
    own = [holding for holding in holdings_of(evidence.samples, evidence.resources[-1:]) if holding.host == old.host]
    away = [after.first - before.last for before, after in zip(own, own[1:]) if after.first > wanted.fault]
    if own and own[-1].last < evidence.end - HOLE:
        away.append(evidence.end - own[-1].last)
    if wanted.gap is not None and away and max(away) > wanted.gap:
        yield failed("%.1f s without %s, and %.1f is the most", max(away), evidence.resources[-1], wanted.gap)


def owners(evidence, wanted):
    if wanted.owner is None:
        return
    if holder_of(evidence, wanted) is None:
        yield not_judged("nobody held before the fault")
        return
    deeds = {SAME: went_on, NO_OTHER: no_other, OTHER: taken_over, ANY: taken_over}
    yield from deeds[wanted.owner](evidence, wanted)


def barred(evidence, wanted):
    """A witness never has a resource."""
    for host in sorted({holding.host for holding in holdings_of(evidence.samples, evidence.resources)} & set(wanted.barred)):
        yield failed("%s has a resource, and may never hold", host)


def silence_of(evidence):
    """The longest time without an acknowledged row."""
    times = [evidence.begin] + [row.when for row in evidence.rows if row.when >= evidence.begin] + [evidence.end]
    return max(after - before for before, after in zip(times, times[1:]))


def lost_of(evidence):
    """The rows that were acknowledged and are not there."""
    return {row.number for row in evidence.rows} - evidence.found


def rows(evidence, wanted):
    if evidence.rows is None:
        return
    if not evidence.rows:
        yield not_judged("no row was acknowledged")
    elif evidence.found is None:
        yield not_judged("the database did not answer at the end: nothing is known of %d rows", len(evidence.rows))
    elif lost_of(evidence):
        yield failed("%d acknowledged rows are LOST", len(lost_of(evidence)))
    if evidence.rows and wanted.silence is not None and silence_of(evidence) > wanted.silence:
        yield failed("%.1f s without an acknowledged row, and %.1f is the most", silence_of(evidence), wanted.silence)


def orderly(evidence):
    for host, was in sorted(evidence.orderly.items()):
        if was is None:
            yield not_judged("%s has no journal of the boot before: mkdir -p /var/log/journal", host)
        elif not was:
            yield failed("%s did not leave in order: the journal of that boot has no event=disarm ok=yes", host)


def judge(evidence, wanted):
    """The findings: none where the test is passed."""
    parts = (overlaps(evidence), barred(evidence, wanted), unseen(evidence, wanted), resets(evidence, wanted), owners(evidence, wanted), rows(evidence, wanted), orderly(evidence))
    return [finding for part in parts for finding in part]


def verdict_of(findings):
    """A failure counts, also beside what could not be judged."""
    found = {finding.verdict for finding in findings}
    return FAILED if FAILED in found else NOT_JUDGED if found else PASSED
