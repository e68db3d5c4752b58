"""The plan of an acceptance: which hosts, how they are reached, and how each resource is looked at. A file of lines `key = value`; a line that begins with # is
none, and quorumd-acceptance(8) has all keys."""
from dataclasses import dataclass, field

REACH = "ssh -o BatchMode=yes -o ConnectTimeout=5 -o ServerAliveInterval=2 -o ServerAliveCountMax=2 root@{host}"
TEXTS = {"reach": REACH, "hosts": "", "witness": "", "arbiter": "", "arbiter-unit": "quorumd-arbiter.service", "database": "", "server": "", "write": "", "read": "", "page": "acceptance.md"}
# seconds: the longest stop and start of the resources, the longest time from a fault of the service to the monitor that sees it, the slowest call of the disk, and
# the longest time from a reset until the kernel runs again. `most-slow` is how many times as long as alone a fixed loop may take on a host
NUMBERS = {"stop": 10.0, "start": 10.0, "monitor": 10.0, "disk-seconds": 0.3, "firmware": 120.0, "most-slow": 4.0}
COMMANDS = ("plug", "plug-back", "cable", "cable-back", "disk", "disk-back")


class WrongPlan(Exception):
    """The plan is at fault: a line that says where, and what is wrong."""


@dataclass
class Plan:
    path: str
    texts: dict = field(default_factory=lambda: dict(TEXTS))
    numbers: dict = field(default_factory=lambda: dict(NUMBERS))
    signs: dict = field(default_factory=dict)
    commands: dict = field(default_factory=dict)
    text: str = ""

    def hosts(self):
        return tuple(self.texts["hosts"].split())

    def witnesses(self):
        return tuple(self.texts["witness"].split())

    def reached(self):
        """All hosts that are asked: those of nodes, and that of the arbiter."""
        return self.hosts() + tuple(self.texts["arbiter"].split())

    def command(self, name, host):
        """The command of this machine that does so to a host, or nothing where that is done by hand."""
        found = self.commands.get("%s.%s" % (name, host), self.commands.get(name, ""))
        return found.replace("{host}", host)


def number_of(where, key, value):
    try:
        found = float(value)
    except ValueError:
        found = -1.0
    if not 0 <= found <= 86400:
        raise WrongPlan("%s: %s is a number up to 86400, and not %s" % (where, key, value))
    return found


def take(plan, where, key, value):
    """Takes a line of the plan."""
    first, _, rest = key.partition(".")
    if first == "sign" and rest:
        plan.signs[rest] = value
    elif first in COMMANDS:
        plan.commands[key] = value
    elif key in NUMBERS:
        plan.numbers[key] = number_of(where, key, value)
    elif key in TEXTS:
        plan.texts[key] = value
    else:
        raise WrongPlan("%s: there is no key %s" % (where, key))


def whole(plan):
    """What a plan has to say, and what does not fit together in it."""
    hosts = plan.hosts()
    if len(hosts) < 2:
        raise WrongPlan("%s: hosts: at least two" % plan.path)
    if len(set(plan.reached())) < len(plan.reached()):
        raise WrongPlan("%s: a host stands there twice" % plan.path)
    for name in plan.witnesses():
        if name not in hosts:
            raise WrongPlan("%s: witness: %s is none of the hosts" % (plan.path, name))
    if len(plan.witnesses()) > len(hosts) - 2:
        raise WrongPlan("%s: witness: at least two of the hosts may hold" % plan.path)
    if not plan.signs:
        raise WrongPlan("%s: no sign.NAME: nothing says whether a resource is there" % plan.path)
    for key in plan.commands:
        _, dot, host = key.partition(".")
        if dot and host not in hosts:
            raise WrongPlan("%s: %s: %s is none of the hosts" % (plan.path, key, host))
    if bool(plan.texts["write"]) != bool(plan.texts["read"]):
        raise WrongPlan("%s: write and read: both, or none of them" % plan.path)
    if plan.texts["write"] and "{row}" not in plan.texts["write"]:
        raise WrongPlan("%s: write: no {row} in it" % plan.path)
    return plan


def plan_of(path, text):
    """The plan that a text is, or WrongPlan."""
    plan, seen = Plan(path, text=text), {}
    for number, line in enumerate(text.splitlines(), 1):
        line, where = line.strip(), "%s:%d" % (path, number)
        if not line or line.startswith("#"):
            continue
        key, equals, value = (part.strip() for part in line.partition("="))
        if not equals or not key or not value:
            raise WrongPlan("%s: a line is KEY = VALUE, and not %s" % (where, line))
        if key in seen:
            raise WrongPlan("%s: %s stands in line %d too" % (where, key, seen[key]))
        seen[key] = number
        take(plan, where, key, value)
    return whole(plan)
