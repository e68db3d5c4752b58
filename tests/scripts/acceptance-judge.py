"""The judge of quorumd-acceptance: evidence of programs and beds that lie, each of which it has to refuse, and of true ones, which it has to pass. The
evidence is made here; the times are those of an image without --timing."""
import os
import pathlib
import sys

sys.path.insert(0, str(pathlib.Path(os.environ["TOP"], "contrib")))
from quorumd_acceptance import bounds
from quorumd_acceptance.judge import FAILED, NOT_JUDGED, PASSED, Evidence, Row, Sample, judge, verdict_of

TIMES = bounds.Times(5.0, 10.0, 1.0, 2.0, 1.0, 17.25)
HOSTS = ("a", "b", "c")
RESOURCES = ("address", "store", "database")
ALL = frozenset(RESOURCES)
FAULT = 10.0


def life(host, boot, begin, end, holds=(), signs=ALL):
    """Looks at a boot of a host, five a second; it has these resources in the stretches `holds`."""
    count = int(round((end - begin) / 0.2)) + 1
    times = [round(begin + 0.2 * step, 2) for step in range(count)]
    return [Sample(when, host, boot, begin - 1.0, signs if any(first <= when <= last for first, last in holds) else frozenset()) for when in times]


def scene(ended, new, until=60.0, old=None, extra=(), back=30.0, other="b"):
    """Host a holds until its boot ends, or until `old`; it is seen again at `back`; host `other` holds from `new` on."""
    looks = life("a", "a1", 0.0, until if ended is None else ended, [(0.0, old if old is not None else until if ended is None else ended)])
    looks += life("a", "a2", back, until) if ended is not None else []
    for host in HOSTS[1:]:
        looks += life(host, host + "1", 0.0, until, [(new, until)] if host == other and new is not None else [])
    return seen(looks + list(extra), until)


def seen(looks, until, **more):
    looks = sorted(looks, key=lambda look: look.when)
    return Evidence(HOSTS, RESOURCES, tuple(looks), 0.0, until, **more)


def with_rows(evidence, missing=(), answers=True, silent=()):
    """A row each half a second, but in the stretches `silent`; these numbers are not there at the end."""
    rows = [Row(step / 2, step) for step in range(-10, int(evidence.end * 2) + 1) if not any(first < step / 2 < last for first, last in silent)]
    found = frozenset(row.number for row in rows) - set(missing) if answers else None
    return Evidence(evidence.hosts, evidence.resources, evidence.samples, evidence.begin, evidence.end, tuple(rows), found)


def without(evidence, host, first, last):
    """The same, where nobody looked at a host for a while."""
    looks = tuple(look for look in evidence.samples if not (look.host == host and first < look.when < last))
    return Evidence(evidence.hosts, evidence.resources, looks, evidence.begin, evidence.end)


def standby_reset(ended, taken=None):
    """Host a holds all the time, and the boot of c ends."""
    looks = life("a", "a1", 0.0, 60.0, [(0.0, 60.0)]) + life("b", "b1", 0.0, 60.0, [(taken, 60.0)] if taken else [])
    looks += life("c", "c1", 0.0, 60.0 if ended is None else ended) + (life("c", "c2", 30.0, 60.0) if ended is not None else [])
    return seen(looks, 60.0)


def restarted(away, back):
    """The service of a is away for a while, and its address and file system stay."""
    part = frozenset(["address", "store"])
    looks = [look._replace(signs=part if away < look.when < back else ALL) for look in life("a", "a1", 0.0, 60.0)]
    return seen(looks + life("b", "b1", 0.0, 60.0) + life("c", "c1", 0.0, 60.0), 60.0)


def all_off(new, boots=1):
    """All boots end at 12; the hosts are back at 40, 45 and 50, and b holds from `new` on."""
    looks = life("a", "a1", 0.0, 12.0, [(0.0, 12.0)])
    for host, back in (("a", 40.0), ("b", 45.0), ("c", 50.0)):
        looks += [] if host == "a" else life(host, host + "1", 0.0, 12.0)
        ends = 90.0 if host != "c" or boots == 1 else 55.0
        looks += life(host, host + "2", back, ends, [(new, 90.0)] if host == "b" else [])
        looks += life(host, "c3", 70.0, 90.0) if ends == 55.0 else []
    return seen(looks, 90.0)


def orderly(evidence, said):
    return Evidence(evidence.hosts, evidence.resources, evidence.samples, evidence.begin, evidence.end, orderly={"a": said})


STORE = frozenset(["store"])
# what it is; the verdict, or a word of what has to be found; the test, the victim, the evidence
ROWS = [
    ("kill as it is", PASSED, bounds.killed, "a", scene(10.4, 24.6)),
    ("hang as it is", PASSED, bounds.hung, "a", scene(14.6, 24.6)),
    ("move as it is", PASSED, bounds.moved, "a", with_rows(scene(None, 16.0, old=12.0), silent=[(11.0, 17.0)])),
    ("database as it is", PASSED, bounds.restarted, "a", with_rows(restarted(10.2, 20.0), silent=[(10.0, 22.0)])),
    ("watchdog of a standby as it is", PASSED, bounds.standby_reset, "c", standby_reset(14.6)),
    ("plug as it is", PASSED, bounds.unplugged, "a", scene(10.2, 24.6)),
    ("cable as it is, out of sight", PASSED, bounds.cut_off, "a", scene(10.2, 24.6)),
    ("panic as it is", PASSED, bounds.panicked, "a", scene(10.2, 24.6)),
    ("disk as it is", PASSED, bounds.without_disk, "a", scene(17.0, 31.0)),
    ("reboot as it is", PASSED, bounds.rebooted, "a", orderly(scene(18.0, 16.0, old=12.0), True)),
    ("reboot, out of sight while it stops", PASSED, bounds.rebooted, "a", orderly(scene(11.0, 24.0), True)),
    ("reboot, seen once more at its end", PASSED, bounds.rebooted, "a", orderly(without(scene(18.0, 16.0, old=12.0), "a", 12.5, 17.5), True)),
    ("all off as it is", PASSED, bounds.all_off, "all", all_off(60.0)),
    # lies
    ("kill: msgwait is ignored, a start 6 s after the loss", "nobody may within 11.9", bounds.killed, "a", scene(10.4, 16.4)),
    ("hang: each feed reaches the device 5 s late", "6.0 is the most", bounds.hung, "a", scene(19.6, 24.6)),
    ("hang: the watchdog resets nothing", "NOT RESET", bounds.hung, "a", scene(None, 24.6)),
    ("hang: reset, and not by the watchdog", "3.0 is the least", bounds.hung, "a", scene(10.4, 24.6)),
    ("another host mounts the store for three seconds", "TWO OWNERS", bounds.killed, "a", scene(10.4, 24.6, extra=[look for look in life("c", "c1", 5.0, 8.0, [(5.0, 8.0)], STORE)])),
    ("nobody takes over", "NOBODY TOOK OVER", bounds.killed, "a", scene(10.4, None)),
    ("the next owner comes late", "is the most", bounds.killed, "a", scene(10.4, 48.0)),
    ("move: the host is reset", "was reset", bounds.moved, "a", scene(12.0, 16.0)),
    ("move: after msgwait", "took over after 15.0 s", bounds.moved, "a", scene(None, 27.0, old=12.0)),
    ("acknowledged rows are lost", "2 acknowledged rows are LOST", bounds.killed, "a", with_rows(scene(10.4, 24.6), missing=(7, 9))),
    ("move: the clients wait half a minute", "without an acknowledged row", bounds.moved, "a", with_rows(scene(None, 16.0, old=12.0), silent=[(11.0, 47.0)])),
    ("a row of before the test is lost", "1 acknowledged rows are LOST", bounds.moved, "a", with_rows(scene(None, 16.0, old=12.0), missing=(-4,), silent=[(11.0, 17.0)])),
    ("database: it moves away", "b took over, and a was to go on", bounds.restarted, "a", scene(None, 16.0, old=11.0)),
    ("database: back after 35 s", "without database", bounds.restarted, "a", restarted(10.2, 45.4)),
    ("database: away for good", "without database", bounds.restarted, "a", restarted(10.2, 99.0)),
    ("plug: a start before msgwait", "nobody may within 11.9", bounds.unplugged, "a", scene(10.2, 19.0)),
    ("cable: the machine goes on for a minute", "is the most", bounds.cut_off, "a", scene(70.0, 24.6, old=11.0, until=120.0, back=100.0)),
    ("watchdog of a standby: it resets nothing", "c was NOT RESET", bounds.standby_reset, "c", standby_reset(None)),
    ("watchdog of a standby: it takes longer", "6.0 is the most", bounds.standby_reset, "c", standby_reset(17.0)),
    ("watchdog of a standby: another host takes over", "b took over", bounds.standby_reset, "c", standby_reset(14.6, 30.0)),
    ("hang: a bystander is reset too", "c was reset", bounds.hung, "a", scene(14.6, 24.6, extra=life("c", "c2", 60.2, 60.4), until=61.0)),
    ("reboot: after msgwait", "took over after", bounds.rebooted, "a", orderly(scene(18.0, 23.0, old=12.0), True)),
    ("reboot: long after it went out of sight", "took over after", bounds.rebooted, "a", orderly(scene(11.0, 34.0), True)),
    ("reboot: it did not leave in order", "did not leave in order", bounds.rebooted, "a", orderly(scene(18.0, 16.0, old=12.0), False)),
    ("all off: nobody starts", "NOBODY TOOK OVER", bounds.all_off, "all", all_off(99.0)),
    ("all off: late", "after enough hosts were back", bounds.all_off, "all", all_off(78.0)),
    ("all off: one is reset once more", "c was reset 2 times", bounds.all_off, "all", all_off(60.0, boots=2)),
    # neither passed nor failed
    ("the database is not asked at the end", NOT_JUDGED, bounds.killed, "a", with_rows(scene(10.4, 24.6), answers=False)),
    ("a host is not looked at for ten seconds", NOT_JUDGED, bounds.killed, "a", without(scene(10.4, 24.6), "b", 40.0, 50.0)),
    ("hang: the victim is not looked at before its reset", NOT_JUDGED, bounds.hung, "a", without(scene(14.6, 24.6), "a", 10.5, 14.5)),
    ("a host is never seen", NOT_JUDGED, bounds.killed, "a", without(scene(10.4, 24.6), "c", -1.0, 99.0)),
    ("nobody held before", NOT_JUDGED, bounds.killed, "a", seen([look._replace(signs=frozenset()) for look in scene(10.4, 24.6).samples], 60.0)),
    ("no journal of the boot before", NOT_JUDGED, bounds.rebooted, "a", orderly(scene(18.0, 16.0, old=12.0), None)),
]


def wrong_of(name, wanted, test, victim, evidence, slow=1.0, witnesses=()):
    """What is wrong with the verdict on a piece of evidence, or nothing."""
    bed = bounds.Bed(HOSTS, witnesses, 10.0, 10.0, 10.0, 120.0, slow)
    findings = judge(evidence, test(TIMES, bed, victim, FAULT))
    said = [finding.text for finding in findings]
    verdict = verdict_of(findings)
    if wanted in (PASSED, NOT_JUDGED):
        return "" if verdict == wanted else "%s: %s, not %s: %s" % (name, verdict, wanted, said)
    return "" if verdict == FAILED and any(wanted in text for text in said) else "%s: %s, and nothing of %r: %s" % (name, verdict, wanted, said)


def main():
    faults = [wrong_of(*row) for row in ROWS]
    # a host that may never hold
    faults.append(wrong_of("a witness takes over", "may never hold", bounds.killed, "a", scene(10.4, 24.6), witnesses=("b",)))
    faults.append(wrong_of("a witness stands by", PASSED, bounds.killed, "a", scene(10.4, 24.6), witnesses=("c",)))
    # load lets a take-over last, and a start come no earlier and a watchdog no later
    faults.append(wrong_of("late on a loaded bed", PASSED, bounds.killed, "a", scene(10.4, 48.0), slow=2.0))
    faults.append(wrong_of("early on a loaded bed", "nobody may", bounds.killed, "a", scene(10.4, 16.4), slow=3.0))
    faults.append(wrong_of("a late feed on a loaded bed", "is the most", bounds.hung, "a", scene(19.6, 24.6), slow=3.0))
    found = [fault for fault in faults if fault]
    if found:
        sys.exit("\n".join(found))


main()
