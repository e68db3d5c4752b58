"""quorumd-acceptance over three hosts that are folders: what it finds red by its probe, hosts that it does not reach, words, a run that is played, and one that is
interrupted and gone on with. The commands of a host are scripts, but for the programs; a host's reset is another word for its boot."""
import json
import os
import pathlib
import shutil
import signal
import subprocess
import sys
import time

TOP = pathlib.Path(os.environ["TOP"])
PROGRAM = TOP / "contrib" / "quorumd-acceptance"
HERE = pathlib.Path.cwd()
HOSTS = ("a", "b", "c")
CONF = "nodelist {\n%s}\n" % "".join(" node {\n  nodeid: %d\n }\n" % number for number in (1, 2, 3))
REACH = """#!/bin/sh
# runs a command on a host, as ssh does: `unreached` and `unlet` are what ssh says
[ ! -s "$0.$1" ] || { cat "$0.$1" >&2; exit 255; }
ROOT=%(here)s/$1
PATH=$ROOT/bin:$PATH
export ROOT PATH
exec sh -c "$2"
"""
SYSTEMCTL = """#!/bin/sh
case "$*" in
'is-active quorumd@'*) echo active ;;
'is-active --quiet chrony.service') [ -e "$ROOT/slew" ] ;;
'is-active'*) exit 3 ;;
'is-enabled unattended-upgrades.service') cat "$ROOT/unattended" 2> /dev/null || echo disabled ;;
'is-enabled'*) cat "$ROOT/at-boot" 2> /dev/null || echo disabled ;;
'start --no-block quorumd-move.service')
    echo move >> %(here)s/log
    (mv "$ROOT/has" %(here)s/moving; sleep 1; mv %(here)s/moving %(here)s/b/has) > /dev/null 2>&1 &
    ;;
'kill --kill-whom=main -s KILL quorumd@'*)
    echo kill >> %(here)s/log
    rm -f "$ROOT/has"
    echo "$$-0000" > "$ROOT/proc/sys/kernel/random/boot_id"
    ;;
esac
"""
COMMANDS = {
    "systemctl": SYSTEMCTL,
    "id": "#!/bin/sh\necho 0\n",
    "dpkg-query": "#!/bin/sh\n[ \"$1\" = -S ] || echo 0.1.0-1\n",
    "systemd-detect-virt": "#!/bin/sh\nexit 1\n",
    "chronyd": "#!/bin/sh\ncat \"$ROOT/slew\"\n",
    "apt-config": "#!/bin/sh\nprintf '%%s\\n' 'APT::Periodic::Unattended-Upgrade \"1\";' 'Unattended-Upgrade::Package-Blacklist:: \"linux-\";'\n",
    "findmnt": "#!/bin/sh\necho /dev/sda1\n",
    "blockdev": "#!/bin/sh\necho 4096\n",
    "journalctl": "#!/bin/sh\n",
    # a fixed loop takes as long as alone
    "python3": "#!/bin/sh\ntext=$(cat)\ncase $text in\n*multiprocessing*) echo 1.00 ;;\n*) printf '%%s\\n' \"$text\" | %(python)s \"$@\" ;;\nesac\n",
}
USAGE = "usage: quorumd-acceptance [--check] [--anew] [--yes TEST[,TEST..]] PLAN [TEST..]"


def put(path, text, mode=0o644):
    path.parent.mkdir(parents=True, exist_ok=True)
    path.write_text(text)
    path.chmod(mode)


def status_of(number):
    return json.dumps({"end": None, "id": number, "phase": "up", "quorate": True, "tick": 1, "view": {"id": 1, "members": [1, 2, 3]}})


FAULTS = (
    # a file of a host that is other than it should be, and the line in red
    ("etc/quorumd/key", "another\n", "the key: not that of a"),
    ("etc/quorumd/corosync.conf", CONF + "\n", "corosync.conf: not that of a"),
    ("etc/quorumd/agent.env", "AGENT=group\n", ""),
    ("sys/class/watchdog/watchdog0/timeout", "60\n", "its watchdog (a device) takes 60000 ms, and the image says 5000"),
    ("at-boot", "enabled\n", "postgresql@15-main.service is started at boot: systemctl disable, and `manual` in start.conf"),
    ("unattended", "enabled\n", "unattended upgrades restart the database: Unattended-Upgrade::Package-Blacklist has no postgresql-15"),
    ("run/quorumd/node-2.json", status_of(2).replace("[1, 2, 3]", "[2]"), "its node sees 1 of 3 nodes"),
    ("proc/77/cmdline", "qemu-nbd\0-f\0raw\0--cache=none\0/dev/mapper/quorumd\0", "qemu-nbd -f raw over sectors of 4096 bytes: /dev/mapper/quorumd: -f host_device, and an image @4096"),
)


def make_host(number, name):
    """A folder that plays a host."""
    root = HERE / name
    for command, text in COMMANDS.items():
        put(root / "bin" / command, text.replace("%(here)s", str(HERE)).replace("%(python)s", sys.executable).replace("%%", "%"), 0o755)
    for program in ("QUORUMD", "QUORUMCTL"):
        (root / "bin" / program.lower()).symlink_to(os.environ[program])
    put(root / "etc/quorumd/corosync.conf", CONF)
    put(root / "etc/quorumd/key", "key of them all\n")
    put(root / "etc/quorumd/resources.conf", "[address]\nagent = ocf:heartbeat:IPaddr2\n[database]\nagent = systemd:postgresql@15-main.service\n")
    put(root / ("etc/quorumd/node-%d.env" % number), "EDGE=--links /etc/quorumd/corosync.conf --key /etc/quorumd/key\nCOMMAND=node\nIMAGE=%s\nWATCHDOG=/dev/watchdog0\n" % (HERE / "disk"))
    put(root / "usr/sbin/quorumd", "the program\n")
    shutil.copy(TOP / "packaging/node-images", root / "usr/node-images")
    (root / "usr/libexec/quorumd").mkdir(parents=True)
    (root / "usr/node-images").rename(root / "usr/libexec/quorumd/node-images")
    put(root / ("run/quorumd/node-%d.json" % number), status_of(number))
    put(root / "dev/watchdog0", "")
    put(root / "sys/class/watchdog/watchdog0/timeout", "5\n")
    put(root / "sys/class/watchdog/watchdog0/identity", "a device\n")
    put(root / "proc/sys/kernel/random/boot_id", "%s0000000-0000\n" % name)
    put(root / "proc/1/stat", "1 (a b) S %s\n" % " ".join("0" for _ in range(40)))
    (root / "proc/uptime").symlink_to("/proc/uptime")


def make_plan(more=""):
    put(HERE / "plan", "reach = %s {host}\nhosts = a b c\nsign.address = test -e \"$ROOT/has\"\nmost-slow = 1000\npage = page.md\nstop = 1\nstart = 1\n%s" % (HERE / "reach", more))


def run(*words):
    done = subprocess.run([sys.executable, "-B", PROGRAM, *words], stdin=subprocess.DEVNULL, stdout=subprocess.PIPE, stderr=subprocess.PIPE, text=True)
    assert "Traceback" not in done.stderr, done.stderr
    return done


def check(what, got, wanted):
    if got != wanted:
        sys.exit("%s:\nwanted %s\ngot    %s" % (what, wanted, got))


def reds():
    """The lines in red of a look at the hosts."""
    done = run("--check", "plan")
    lines = [line for line in done.stdout.splitlines() if line.startswith("RED")]
    check("the status of %s" % lines, done.returncode, 1 if lines else 0)
    return lines


def words():
    """Words and plans that are not taken; nothing is done."""
    for given, line in (([], "no PLAN"), (["--no"], "--no is not taken"), (["plan", "moves"], "there is no test moves: "), (["--yes", "plan"], "there is no test plan: "), (["--yes"], "there is no test '': ")):
        done = run(*given)
        check(given, (done.returncode, done.stdout), (2, ""))
        first, last = done.stderr.splitlines()[0], done.stderr.splitlines()[-1]
        check(given, (first.startswith("quorumd-acceptance: " + line), last), (True, USAGE))
    done = run("absent")
    check("no such plan", (done.returncode, done.stderr.splitlines()[0]), (2, "quorumd-acceptance: absent: No such file or directory"))
    put(HERE / "wrong", "hosts = a b\nno line\n")
    check("a wrong plan", run("wrong").stderr, "quorumd-acceptance: wrong:2: a line is KEY = VALUE, and not no line\n")
    done = run("--yes", "kill", "plan", "move", "kill", "hang")
    check("no terminal", (done.returncode, done.stdout, done.stderr.splitlines()[0]), (2, "", "quorumd-acceptance: no terminal to ask at: --yes hang"))
    check("nothing was done", (HERE / "log").exists() or (HERE / "page.md").exists(), False)


def by_name():
    """Each fault that the probe finds, by name; a second fault hides none."""
    check("all is right", reds(), [])
    before = {}
    put(HERE / "b/proc/77/comm", "qemu-nbd\n")
    for path, text, _ in FAULTS:
        before[path] = (HERE / "b" / path).read_text() if (HERE / "b" / path).exists() else None
        put(HERE / "b" / path, text)
    check("each fault", sorted(reds()), sorted("RED  b: " + line for _, _, line in FAULTS if line))
    for path, text in before.items():
        (HERE / "b" / path).unlink() if text is None else put(HERE / "b" / path, text)
    (HERE / "b/proc/77/comm").unlink()


def unreached():
    """Hosts that do not answer: a line each, and the page says that nothing was judged."""
    put(HERE / "reach.c", "ssh: connect to host c port 22: No route to host\n")
    put(HERE / "reach.b", "root@b: Permission denied (publickey,password).\n")
    done = run("plan", "move")
    check("no such hosts", [line for line in done.stdout.splitlines() if line.startswith("RED")],
          ["RED  b: not let in: root@b: Permission denied (publickey,password).", "RED  c: not reached: ssh: connect to host c port 22: No route to host"])
    check("its end", (done.returncode, done.stdout.splitlines()[-1]), (1, "no test was played: page.md"))
    page = (HERE / "page.md").read_text()
    check("the page", [text in page for text in ("**No test was played.**", "| move | - | not judged: the cluster is red |", "**c: not reached: ssh: connect")], [True] * 3)
    check("nothing was done", (HERE / "log").exists(), False)
    for name in ("reach.b", "reach.c", "page.md"):
        (HERE / name).unlink()
    (HERE / "b/etc/quorumd/node-2.env").rename(HERE / "kept")
    check("a host without its node", reds()[0], "RED  a: its text has node 2, and no host of the plan runs that")
    (HERE / "kept").rename(HERE / "b/etc/quorumd/node-2.env")


def begun(*given):
    return subprocess.Popen([sys.executable, "-B", PROGRAM, *given], stdin=subprocess.DEVNULL, stdout=subprocess.PIPE, stderr=subprocess.PIPE, text=True)


def count(word):
    return (HERE / "log").read_text().split().count(word)


def played():
    """A move is played and passed; a run is interrupted in the next test, and gone on with."""
    given = ("--yes", "kill", "plan", "move", "kill")
    child = begun(*given)
    while not (HERE / "log").exists() or not count("kill"):
        if child.poll() is not None:
            sys.exit("it ended: %s" % (child.communicate(),))
        time.sleep(0.1)
    child.send_signal(signal.SIGTERM)
    said, errors = child.communicate(timeout=60)
    check("interrupted", (child.returncode, errors), (1, "quorumd-acceptance: interrupted: the next run goes on\n"))
    check("the move of %s" % said, "passed: move on a" in said, True)
    page = (HERE / "page.md").read_text()
    check("its page", "| kill | - | not judged: interrupted |" in page and "| move | a | passed |" in page, True)
    (HERE / "a/has").touch()
    (HERE / "b/has").unlink(missing_ok=True)
    child = begun(*given)
    while count("kill") < 2 and child.poll() is None:
        time.sleep(0.1)
    child.send_signal(signal.SIGTERM)
    said, _ = child.communicate(timeout=60)
    check("gone on with: %s" % said, "goes on with the run of " in said, True)
    check("a move is not played again", count("move"), 1)
    make_plan("# another\n")
    put(HERE / "reach.c", "ssh: connect to host c port 22: No route to host\n")
    done = run(*given)
    check("another plan", "begins anew: the plan, the tests, a program or a text are others than in the run of " in done.stdout, True)
    check("its page", (HERE / "page.md").read_text().count("| not judged: the cluster is red |"), 2)


def main():
    put(HERE / "reach", REACH.replace("%(here)s", str(HERE)), 0o755)
    for number, name in enumerate(HOSTS, 1):
        make_host(number, name)
    with open(HERE / "made", "w") as said:
        subprocess.run([os.environ["QUORUMD"], "create", "--image", "disk"], input=CONF, text=True, stdout=said, stderr=said, check=True)
    make_plan()
    (HERE / "a/has").touch()
    words()
    by_name()
    unreached()
    played()


main()
