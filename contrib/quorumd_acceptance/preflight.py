"""What has to be so before the first test: what each host said of itself, against the other hosts and the plan. It asks nobody."""
import json
from collections import namedtuple
from dataclasses import dataclass, field

Red = namedtuple("Red", "host text")
MOST_SLEW = 10000  # parts per million: the premise is one per cent


@dataclass(frozen=True)
class Facts:
    """The lines of a probe of a host; `why` says why there are none."""
    host: str
    lines: dict = field(default_factory=dict)
    why: str = ""

    def one(self, key):
        """The first value of a key, or an empty word."""
        return self.all(key)[0] if self.all(key) else ""

    def all(self, key):
        return self.lines.get(key, [])


def facts_of(host, text):
    """The facts that a probe wrote; it is whole where its last line is `end`."""
    lines = {}
    for line in text.splitlines():
        key, _, value = line.partition(" ")
        lines.setdefault(key, []).append(value)
    return Facts(host, lines) if "end" in lines else Facts(host, {}, "the probe came to no end")


def why_unreached(answer):
    """A line on a host that did not answer."""
    last = ([line for line in (answer.errors + answer.text).splitlines() if line.strip()] or ["status %s" % answer.status])[-1].strip()
    return ("not let in: %s" if "ermission denied" in last else "not reached: %s") % last


def why_not_up(status, count):
    """Why a node does not stand as it should by the text of its status file, or nothing."""
    try:
        told = json.loads(status)
        members = (told["view"] or {"members": []})["members"]
        is_up, is_quorate = told["phase"] == "up" and told["end"] is None, told["quorate"]
        answer = told["arbiter"]["answer"] if "arbiter" in told else "yes"
    except (ValueError, KeyError, TypeError):
        return "its node has no status file"
    if not is_up:
        return "its node is %s" % (told["end"] or told["phase"])
    if not is_quorate or len(members) != count:
        return "its node sees %d of %d nodes" % (len(members), count)
    return {"yes": "", "none": "its arbiter does not answer"}.get(answer, "its arbiter answers %s" % answer)


def of_host(facts, count):
    """What is wrong with a host of so many by itself."""
    if facts.why:
        return [facts.why]
    said = []
    if facts.one("user") != "0":
        said.append("the command of `reach` is not root there")
    if not facts.one("package") and not facts.one("program"):
        said.append("quorumd is not installed")
    if len(facts.all("node")) != 1:
        said.append("/etc/quorumd has %d node-N.env: quorumd-setup makes one" % len(facts.all("node")))
    elif facts.one("unit") != "active":
        said.append("quorumd@%s is %s" % (facts.one("node"), facts.one("unit") or "not there"))
    elif why_not_up(facts.one("status"), count):
        said.append(why_not_up(facts.one("status"), count))
    if not facts.one("clock"):
        said.append("no python3 is installed")
    return said + of_watchdog(facts) + of_database(facts) + of_servers(facts) + of_clock(facts)


def times_of(facts):
    """The times of its image in milliseconds and whether they are safe, or None."""
    words = facts.one("times").split()
    return ([int(word) for word in words[:5]], words[5] == "yes") if len(words) == 6 else None


def of_watchdog(facts):
    found = times_of(facts)
    if not facts.all("node"):
        return []
    if found is None:
        return ["its disk image cannot be read: %s" % (facts.one("image") or "node-N.env names none")]
    said = [] if found[1] else ["the times of its image are not safe: quorumctl check"]
    if facts.one("watchdog-is-none"):
        return said
    if not facts.one("watchdog-seconds").isdigit():
        return said + ["its watchdog is none: no time in /sys/class/watchdog"]
    took = int(facts.one("watchdog-seconds")) * 1000
    if took > found[0][0] or not took:
        said.append("its watchdog (%s) takes %d ms, and the image says %d" % (facts.one("watchdog"), took, found[0][0]))
    return said


def of_database(facts):
    said = ["%s is started at boot: systemctl disable, and `manual` in start.conf" % unit for unit in sorted(set(facts.all("at-boot")))]
    at_risk = [package for package in sorted(set(facts.all("upgraded"))) if not any(kept and package.startswith(kept.rstrip("$-*.")) for kept in facts.all("upgrades-not"))]
    if facts.one("unattended") and at_risk:
        said.append("unattended upgrades restart the database: Unattended-Upgrade::Package-Blacklist has no %s" % ", ".join(at_risk))
    return said


def of_servers(facts):
    """A block server with `raw` writes 512 bytes by writing 4096 back."""
    has_places = any(image.endswith("@4096") for image in facts.all("image"))
    for line in facts.all("raw"):
        size, _, served = line.partition(" ")
        if size == "4096" and not has_places:
            return ["qemu-nbd -f raw over sectors of 4096 bytes: %s: -f host_device, and an image @4096" % served]
    return []


def of_clock(facts):
    slew = facts.one("slew")
    if slew.isdigit() and int(slew) > MOST_SLEW and facts.one("clock") in ("none", "slewed"):
        return ["the node goes by a clock that chronyd may slew by %s ppm: maxslewrate %d" % (slew, MOST_SLEW)]
    return []


def differing(all_facts, key, what):
    """Hosts of which one says another thing than most do."""
    said = {facts.host: facts.one(key) for facts in all_facts if not facts.why and (facts.one(key) or key != "times")}
    if len(set(said.values())) < 2:
        return []
    usual = max(sorted(set(said.values())), key=list(said.values()).count)
    return [Red(host, "%s: not that of %s" % (what, next(other for other, its in said.items() if its == usual)) if one else "%s: none is there" % what) for host, one in said.items() if one != usual]


def of_members(all_facts, hosts):
    """Each node of the text stands on one of the hosts of the plan."""
    there = [facts for facts in all_facts if not facts.why and facts.all("member")]
    if not there or any(facts.why for facts in all_facts):
        return []
    nodes = {facts.one("node"): facts.host for facts in there}
    said = [Red(there[0].host, "its text has node %s, and no host of the plan runs that" % member) for member in there[0].all("member") if member not in nodes]
    return said + [Red(facts.host, "another host of the plan has node %s too" % facts.one("node")) for facts in there if nodes[facts.one("node")] != facts.host]


def of_machines(all_facts, own):
    """The hosts are machines of their own, and none of them is the one that judges."""
    said, seen = [], {}
    for facts in all_facts:
        machine = facts.one("machine")
        if machine and machine == own:
            said.append(Red(facts.host, "it is this machine: begin on one that is none of the cluster"))
        elif machine and machine in seen:
            said.append(Red(facts.host, "it is the machine of %s" % seen[machine]))
        seen[machine] = facts.host
    return said


def reds(all_facts, plan, own):
    """All that is red, in the order of the hosts. `all_facts` are those of the hosts of nodes, `own` is this machine."""
    said = [Red(facts.host, text) for facts in all_facts for text in of_host(facts, len(plan.hosts()))]
    may_hold = [facts for facts in all_facts if facts.host not in plan.witnesses()]
    for key, what in (("key", "the key"), ("text:corosync.conf", "corosync.conf"), ("times", "the times of the image"), ("package", "the package"), ("program", "the program")):
        said += differing(all_facts, key, what)
    said += differing(may_hold, "text:resources.conf", "resources.conf")
    said += of_members(all_facts, plan.hosts()) + of_machines(all_facts, own)
    order = plan.reached()
    return sorted(dict.fromkeys(said), key=lambda red: order.index(red.host))


def notes(all_facts):
    """What is no fault, and stands on the page."""
    said = []
    for facts in all_facts:
        if facts.one("clock") == "unknown" and facts.one("slew"):
            said.append("%s: it is not known which clock the node goes by, and chronyd may slew one by %s ppm" % (facts.host, facts.one("slew")))
        if facts.one("container"):
            said.append("%s is a container (%s): no kernel, disk or watchdog of its own was tried" % (facts.host, facts.one("container")))
    return said
