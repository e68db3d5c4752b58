"""The tests of an acceptance: what is done, on which host, what has to be so afterwards, and whether a machine ends by it."""
from collections import namedtuple
from dataclasses import dataclass

from . import bounds

OWNER, STANDBYS, ALL, ARBITER = "the owner", "each standby", "all hosts", "the arbiter"
# a test that is played, or why it is not
Choice = namedtuple("Choice", "test why")


@dataclass(frozen=True)
class Test:
    """`deed` runs on the host, {id} its node; where there is none, the command `hand` of the plan does it, or the operator. `needs` is a key of the plan."""
    name: str
    about: str
    where: str
    wanted: object
    ends: bool
    deed: str = ""
    hand: str = ""
    needs: str = ""
    undo: str = ""
    asked: str = ""
    orderly: bool = False


MAIN = "systemctl kill --kill-whom=main -s %s quorumd@{id}.service"
TESTS = (
    Test("move", "an operator moves the resources", OWNER, bounds.moved, False, "systemctl start --no-block quorumd-move.service"),
    Test("database", "the database is killed", OWNER, bounds.restarted, False, "systemctl kill -s KILL {database}", needs="database"),
    Test("server", "the block server is killed", OWNER, bounds.undisturbed, False, "systemctl kill -s KILL {server}", needs="server"),
    Test("arbiter", "the arbiter is stopped for a while", ARBITER, bounds.undisturbed, False, "systemctl stop {arbiter-unit}", needs="arbiter", undo="systemctl start {arbiter-unit}"),
    Test("watchdog", "the node of a standby stands still: its watchdog resets it", STANDBYS, bounds.standby_reset, True, MAIN % "STOP"),
    Test("hang", "the node of the owner stands still: its watchdog resets it", OWNER, bounds.hung, True, MAIN % "STOP"),
    Test("kill", "the node of the owner is killed: its unit resets the machine", OWNER, bounds.killed, True, MAIN % "KILL"),
    Test("panic", "the kernel of the owner panics", OWNER, bounds.panicked, True, "echo c > /proc/sysrq-trigger"),
    Test("reboot", "the owner is rebooted in order", OWNER, bounds.rebooted, True, "systemctl reboot", orderly=True),
    Test("disk", "the disk image is taken away from the owner", OWNER, bounds.without_disk, True, hand="disk", asked="take the disk image away from {host}"),
    Test("cable", "the network of the owner is cut", OWNER, bounds.cut_off, True, hand="cable", asked="pull the cable of {host}"),
    Test("plug", "the power of the owner is cut", OWNER, bounds.unplugged, True, hand="plug", asked="pull the plug of {host}"),
    Test("off", "all machines are switched off at once, and on again", ALL, bounds.all_off, True, hand="plug", asked="pull the plugs of all machines at once"),
)
NAMES = tuple(test.name for test in TESTS)
BACK = {"disk": "give the disk image back to {host}", "cable": "plug the cable of {host} in again", "plug": "switch {host} on again"}


def has_commands(test, plan):
    """Whether the plan has a command for what is else done by hand, and for its end."""
    return all(plan.command(name, host) for name in (test.hand, test.hand + "-back") for host in plan.hosts())


def why_not(test, plan, all_facts, is_terminal):
    """Why a test cannot be played, or nothing."""
    if test.needs and not plan.texts[test.needs]:
        return "the plan has no %s" % test.needs
    if test.hand and not has_commands(test, plan) and not is_terminal:
        return "the plan has no %s and %s-back, and nobody is there to do it by hand" % (test.hand, test.hand)
    if test.name == "panic" and any(facts.one("container") for facts in all_facts):
        return "a container has no kernel of its own"
    return ""


def choices_of(names, plan, all_facts, is_terminal):
    """The tests of these names, or all, in their order."""
    return [Choice(test, why_not(test, plan, all_facts, is_terminal)) for test in TESTS if not names or test.name in names]


def hosts_of(test, plan, owner):
    """On which hosts a test is played while `owner` holds; one after the other."""
    if test.where == STANDBYS:
        return [host for host in plan.hosts() if host != owner]
    return [{OWNER: owner, ARBITER: plan.texts["arbiter"], ALL: "all"}[test.where]]


def filled(text, plan, host, node):
    """A command with the words of the plan in it."""
    for key in ("database", "server", "arbiter-unit"):
        text = text.replace("{%s}" % key, plan.texts[key])
    return text.replace("{id}", node).replace("{host}", host)
