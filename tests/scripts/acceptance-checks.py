"""What quorumd-acceptance finds red before its first test, each fault by name; and the plans that it does not take."""
import os
import pathlib
import sys

sys.path.insert(0, str(pathlib.Path(os.environ["TOP"], "contrib")))
from quorumd_acceptance import plan, preflight

STATUS = '{"end":null,"phase":"up","quorate":true,"view":{"id":1,"members":[1,2,3]}}'
TEXT = "hosts = db1 db2 db3\nsign.address = true\n"


def probe(number, **more):
    """The lines of a probe of a right host; `more` has other values, lists, by key with _ for -."""
    lines = {"user": ["0"], "machine": ["m%d" % number], "kernel": ["6.1.0"], "package": ["0.1.0-1"], "program": ["p"], "text:corosync.conf": ["t"], "text:resources.conf": ["r"],
             "key": ["k"], "member": ["1", "2", "3"], "node": [str(number)], "unit": ["active"], "status": [STATUS], "image": ["nbd:unix:/s"],
             "times": ["5000 10000 1000 2000 1000 yes"], "watchdog": ["i6300ESB timer"], "watchdog-seconds": ["5"], "resource": ["postgresql@15-main.service"],
             "upgraded": ["postgresql-common", "postgresql-15"], "clock": ["unknown"]}
    lines.update({key.replace("_", "-"): value for key, value in more.items()})
    return "".join("%s %s\n" % (key, value) for key, values in lines.items() for value in values) + "end\n"


def reds(text, more):
    """What is red where the second host is other than it should be."""
    facts = [preflight.facts_of("db%d" % number, probe(number, **more if number == 2 else {})) for number in (1, 2, 3)]
    return ["%s: %s" % red for red in preflight.reds(facts, plan.plan_of("plan", text), "own")]


BLACKLIST = ["postgresql"]
ROWS = [
    ({}, ""),
    ({"user": ["1000"]}, "the command of `reach` is not root there"),
    ({"package": [], "program": []}, "quorumd is not installed|the package: none is there|the program: none is there"),
    ({"node": []}, "/etc/quorumd has 0 node-N.env: quorumd-setup makes one|its text has node 2, and no host of the plan runs that"),
    ({"unit": ["failed"]}, "quorumd@2 is failed"),
    ({"status": [STATUS.replace("[1,2,3]", "[1,2]")]}, "its node sees 2 of 3 nodes"),
    ({"status": [STATUS.replace('"up"', '"leaving"')]}, "its node is leaving"),
    ({"status": [""]}, "its node has no status file"),
    ({"status": [STATUS.replace('"end"', '"arbiter":{"answer":"yes"},"end"')]}, ""),
    ({"status": [STATUS.replace('"end"', '"arbiter":{"answer":"no"},"end"')]}, "its arbiter answers no"),
    ({"status": [STATUS.replace('"end"', '"arbiter":{"answer":"none"},"end"')]}, "its arbiter does not answer"),
    ({"key": ["other"]}, "the key: not that of db1"),
    ({"key": []}, "the key: none is there"),
    ({"text:corosync.conf": ["other"]}, "corosync.conf: not that of db1"),
    ({"text:resources.conf": ["other"]}, "resources.conf: not that of db1"),
    ({"times": ["5000 12000 1000 2000 1000 yes"]}, "the times of the image: not that of db1"),
    ({"times": ["5000 5000 1000 2000 1000 no"]}, "the times of its image are not safe: quorumctl check|the times of the image: not that of db1"),
    ({"times": []}, "its disk image cannot be read: nbd:unix:/s"),
    ({"watchdog_seconds": ["30"]}, "its watchdog (i6300ESB timer) takes 30000 ms, and the image says 5000"),
    ({"watchdog_seconds": [""]}, "its watchdog is none: no time in /sys/class/watchdog"),
    ({"watchdog_seconds": ["2"]}, ""),
    ({"at_boot": ["postgresql@15-main.service"]}, "postgresql@15-main.service is started at boot: systemctl disable, and `manual` in start.conf"),
    ({"unattended": ["yes"]}, "unattended upgrades restart the database: Unattended-Upgrade::Package-Blacklist has no postgresql-15, postgresql-common"),
    ({"unattended": ["yes"], "upgrades_not": BLACKLIST}, ""),
    ({"unattended": ["yes"], "upgrades_not": ["postgresql-15"]}, "unattended upgrades restart the database: Unattended-Upgrade::Package-Blacklist has no postgresql-common"),
    ({"raw": ["4096 /dev/mapper/quorumd"]}, "qemu-nbd -f raw over sectors of 4096 bytes: /dev/mapper/quorumd: -f host_device, and an image @4096"),
    ({"raw": ["512 /dev/mapper/quorumd"]}, ""),
    ({"raw": ["4096 /dev/mapper/quorumd"], "image": ["nbd:unix:/s@4096"]}, ""),
    ({"slew": ["83333"], "clock": ["slewed"]}, "the node goes by a clock that chronyd may slew by 83333 ppm: maxslewrate 10000"),
    ({"slew": ["83333"], "clock": ["none"]}, "the node goes by a clock that chronyd may slew by 83333 ppm: maxslewrate 10000"),
    ({"slew": ["83333"], "clock": ["raw"]}, ""),
    ({"slew": ["10000"], "clock": ["slewed"]}, ""),
    ({"machine": ["m1"]}, "it is the machine of db1"),
    ({"machine": ["own"]}, "it is this machine: begin on one that is none of the cluster"),
]
PLANS = [
    ("hosts = db1 db2 db3\n", "plan: no sign.NAME: nothing says whether a resource is there"),
    ("hosts = db1\nsign.a = true\n", "plan: hosts: at least two"),
    ("hosts = db1 db1\nsign.a = true\n", "plan: a host stands there twice"),
    (TEXT + "hots = db1\n", "plan:3: there is no key hots"),
    (TEXT + "sign.address = false\n", "plan:3: sign.address stands in line 2 too"),
    (TEXT + "no line\n", "plan:3: a line is KEY = VALUE, and not no line"),
    (TEXT + "stop = soon\n", "plan:3: stop is a number up to 86400, and not soon"),
    (TEXT + "witness = db4\n", "plan: witness: db4 is none of the hosts"),
    (TEXT + "witness = db2 db3\n", "plan: witness: at least two of the hosts may hold"),
    (TEXT + "plug.db4 = true\n", "plan: plug.db4: db4 is none of the hosts"),
    (TEXT + "write = true {row}\n", "plan: write and read: both, or none of them"),
    (TEXT + "write = true\nread = true\n", "plan: write: no {row} in it"),
]


def plan_fault(text):
    try:
        plan.plan_of("plan", text)
    except plan.WrongPlan as wrong:
        return str(wrong)
    return ""


def main():
    said = []
    for more, wanted in ROWS:
        lines = ["%s: %s" % ("db1" if "no host of the plan" in text else "db2", text) for text in wanted.split("|") if text]
        if sorted(reds(TEXT, more)) != sorted(lines):
            said.append("%s: %s, not %s" % (more, reds(TEXT, more), lines))
    said += ["%r: %r, not %r" % (text, plan_fault(text), wanted) for text, wanted in PLANS if plan_fault(text) != wanted]
    # a third host that the plan forgets
    facts = [preflight.facts_of("db%d" % number, probe(number, status=[STATUS.replace("[1,2,3]", "[1,2]")])) for number in (1, 2)]
    two = ["%s: %s" % red for red in preflight.reds(facts, plan.plan_of("plan", "hosts = db1 db2\nsign.a = true\n"), "own")]
    said += [str(two)] if two != ["db1: its text has node 3, and no host of the plan runs that"] else []
    # a witness starts no resource, so its file of them is of no matter
    for text in ["other"], []:
        of_witness = reds(TEXT + "witness = db2\n", {"text:resources.conf": text})
        said += ["of a witness: %s" % of_witness] if of_witness else []
    cut = preflight.facts_of("db1", "user 0\n")
    said += [cut.why] if cut.why != "the probe came to no end" else []
    if said:
        sys.exit("\n".join(said))


main()
