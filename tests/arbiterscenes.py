"""For bench/arbiter: what befalls two nodes and their arbiter, and what is to be seen then. Each scene gives what it measured, in milliseconds; where something is
not as it should be it says what."""
import subprocess
import time

from arbiterhosts import ARBITER, LEASE, LOOP, MSGWAIT, SPARE, Lab
from live import STARTED, Wrong, milliseconds, wait_for

BETWEEN = (("1", "2"), ("2", "1"))  # the ways between the nodes
TAKE_OVER = (MSGWAIT + 8 * LOOP) / 1000  # seconds after which a take-over is over, as docs/dev/VIEWS.md bounds it
STOP = 60  # seconds for which an arbiter is stopped


class Passing:
    """What becomes of packets: the ways that are cut, and how replies come."""

    def __init__(self, lab):
        self.cut, self.held, self.late, self.again, self.replies = set(), {}, 0.0, 0, []
        lab.network.passes = self.passes

    def passes(self, way, packet):
        if way in self.cut:
            return []
        if way in self.held:
            self.held[way] = packet
            return []
        if way[0] != ARBITER:
            return [(0, packet)]
        self.replies.append((way, packet))
        old = [(0, one) for to, one in self.replies[:-20][-1:] if to == way] if self.again else []
        return [(self.late, packet)] * (1 + self.again) + old


def holder_goes_on(lab):
    """Host 1 owns on without a stop, and host 2 was never quorate alone, resets nobody and is reset."""
    lab.needs("host 1 owns on", lab.owned(lab.hosts["1"])[-1][1] is None and lab.hosts["1"].acts() == ["start"])
    lab.needs("host 2 is never quorate alone", not any(members == ("2",) for _, _, members in lab.quorate(lab.hosts["2"])))
    lab.needs("host 2 resets nobody", not lab.has_reset("2", "1"))
    lab.needs("host 2 is reset", lab.hosts["2"].events("halt") and lab.has_reset("1", "2"))


def gap(lab):
    """For how long host 1 was not quorate."""
    spans = lab.quorate(lab.hosts["1"])
    return max([begin - end for (_, end, _), (begin, _, _) in zip(spans, spans[1:])], default=0)


def cut(lab):
    Passing(lab).cut.update(BETWEEN)
    time.sleep(TAKE_OVER + 7)
    holder_goes_on(lab)
    return {"the holder not quorate": gap(lab)}


def holder_dead(lab):
    lab.hosts["1"].dies()
    wait_for("host 2 owns", lambda: (lab.hosts["2"].folder / "owned").exists())
    lab.needs("in time", lab.without_owner() <= TAKE_OVER * 1000)
    return {"without an owner": lab.without_owner()}


def arbiter_killed(lab):
    lab.arbiter.kill()
    time.sleep(TAKE_OVER)
    lab.needs("both say that it is silent", all(host.events("device-silent") for host in lab.hosts.values()))
    lab.new_arbiter()
    wait_for("a yes of the new one to both", lambda: all(lab.answers(host)[-1] == "yes" and "no" in lab.answers(host)[-2:] for host in lab.hosts.values()))
    lab.needs("host 1 owns on", lab.owned(lab.hosts["1"])[-1][1] is None and lab.hosts["1"].acts() == ["start"])
    lab.needs("both run", all(host.ended() is None for host in lab.hosts.values()))
    return {}


def restarted(lab, passing):
    """The arbiter ends and another one begins, a second before the cut."""
    lab.arbiter.kill()
    lab.arbiter.wait()
    lab.new_arbiter()
    booted = milliseconds()
    time.sleep(1)
    passing.cut.update(BETWEEN)
    return booted


def nobody_within(lab, booted):
    """In the cut nobody was quorate alone before a lease after that boot had passed."""
    alone = [begin for host in lab.hosts.values() for begin, _, members in lab.quorate(host) if members == (host.ident,)]
    lab.needs("nobody is quorate alone within a lease of the boot", all(begin >= booted + LEASE - 1000 for begin in alone))
    lab.needs("somebody is after it", alone)
    return {"from the boot to a quorate side": min(alone) - booted}


def restarted_before_a_cut(lab):
    booted = restarted(lab, Passing(lab))
    time.sleep(LEASE / 1000 + TAKE_OVER + 12)
    return {**nobody_within(lab, booted), "without an owner": lab.without_owner()}


def held_at(call, is_there):
    """The arbiter is stopped for a minute where that call has such an answer (-38: it is made), and the cut comes a second later."""
    def scene(lab):
        passing = Passing(lab)
        words = ["catch syscall %s" % call, "condition 1 $rax %s" % is_there, "continue", "shell sleep %d" % STOP, "detach"]
        with open(lab.folder / "held", "w") as said:
            tracer = subprocess.Popen(["gdb", "-nx", "-batch", "-p", str(lab.arbiter.pid), *(word for one in words for word in ("-ex", one))],
                                      stdin=subprocess.DEVNULL, stdout=said, stderr=said)
        STARTED.append(tracer)
        count = len(passing.replies)
        wait_for("the arbiter is silent", lambda: is_silent(passing))
        passing.cut.update(BETWEEN)
        time.sleep(STOP - 8)
        lab.needs("it answered nobody meanwhile", len(passing.replies) <= count + 8)
        wait_for("it answers again", lambda: not is_silent(passing, 0.3))
        lab.needs("it was stopped there", "(%s " % ("returned from syscall" if is_there == "> 0" else "call to syscall") in (lab.folder / "held").read_text())
        time.sleep(LEASE / 1000 + TAKE_OVER + 6)
        return {"without an owner": lab.without_owner()}
    return scene


def is_silent(passing, seconds=1.2):
    count = len(passing.replies)
    time.sleep(seconds)
    return len(passing.replies) == count


def replies_late(lab):
    """Each reply comes half a second after the limit: none is taken in the cut, and nobody is quorate."""
    passing = Passing(lab)
    passing.late = 2.5
    time.sleep(4)
    cut_at = milliseconds()
    passing.cut.update(BETWEEN)
    time.sleep(TAKE_OVER + 7)
    for host in lab.hosts.values():
        lab.needs("nobody is quorate alone", not any(members == (host.ident,) for _, _, members in lab.quorate(host)))
        lab.needs("no answer is taken", not any(int(event["tick"]) > cut_at + 5 * LOOP for event in host.events("device")))
    lab.needs("nobody is reset", all(host.ended() is None for host in lab.hosts.values()))
    return {}


def replies_again(lab):
    """Each reply comes four times, and one of twenty before it."""
    passing = Passing(lab)
    passing.again = 3
    time.sleep(6)
    passing.cut.update(BETWEEN)
    time.sleep(TAKE_OVER + 7)
    holder_goes_on(lab)
    return {"the holder not quorate": gap(lab)}


def replies_of_an_earlier_boot(lab):
    """What the arbiter before said comes again and again in the cut."""
    passing = Passing(lab)
    time.sleep(4)
    old = list(passing.replies)
    booted = restarted(lab, passing)
    until = time.monotonic() + LEASE / 1000 + TAKE_OVER + 12
    while time.monotonic() < until:
        for way, packet in old:
            lab.network.hand_on(way, packet)
        time.sleep(0.5)
    return {**nobody_within(lab, booted), "without an owner": lab.without_owner()}


def polls_held(lab, between):
    """The polls of host 1 are held up in the cut, until host 2 has the vote; then this happens, and the last one comes."""
    passing = Passing(lab)
    passing.held["1", ARBITER] = b""
    passing.cut.update(BETWEEN)
    wait_for("host 2 is quorate alone", lambda: any(members == ("2",) for _, _, members in lab.quorate(lab.hosts["2"])))
    between()
    packet = passing.held.pop(("1", ARBITER))
    lab.network.hand_on(("1", ARBITER), packet)
    time.sleep(TAKE_OVER)
    return {"without an owner": lab.without_owner()}


def holder_polls_late(lab):
    """Host 2 has the vote, and host 1 is answered no."""
    seen = polls_held(lab, lambda: None)
    lab.needs("host 1 is never quorate alone", not any(members == ("1",) for _, _, members in lab.quorate(lab.hosts["1"])))
    lab.needs("host 2 owns", lab.owned(lab.hosts["2"]) and lab.owned(lab.hosts["2"])[-1][1] is None)
    return seen


def two_arbiters(lab):
    """Wrong: each node has an arbiter of its own."""
    spare = lab.new_arbiter(SPARE)
    time.sleep(LEASE / 1000)
    lab.network.serving["2"] = SPARE
    time.sleep(3)
    lab.needs("both run", spare.poll() is None)
    return polls_held(lab, lambda: None)


def restored(lab):
    """Wrong: once host 2 has the vote, the arbiter's machine is one that heard no poll since its boot, as after a snapshot of then."""
    lab.new_arbiter(SPARE)
    time.sleep(LEASE / 1000 + 1)
    return polls_held(lab, lambda: lab.network.serving.update({ARBITER: SPARE}))


SCENES = {
    "cut": cut,
    "holder-dead": holder_dead,
    "arbiter-killed": arbiter_killed,
    "restarted-before-a-cut": restarted_before_a_cut,
    "stopped-after-its-receive": held_at("recvfrom", "> 0"),
    "stopped-before-its-send": held_at("sendto", "== -38"),
    "stopped-after-its-send": held_at("sendto", "> 0"),
    "replies-late": replies_late,
    "replies-again": replies_again,
    "replies-of-an-earlier-boot": replies_of_an_earlier_boot,
    "holder-polls-late": holder_polls_late,
}
WRONG = {"two-arbiters": two_arbiters, "restored": restored}  # here two are to be seen quorate apart


def played(name, folder):
    """What a scene gave, and what was wrong, or None."""
    lab, seen = Lab(folder), {}
    try:
        seen = (SCENES | WRONG)[name](lab.start())
        said = None
    except Wrong as wrong:
        said = str(wrong)
    try:
        seen |= {"both quorate apart": lab.both_apart(), "both own": lab.overlap()}
    finally:
        lab.end()
    return seen, said
