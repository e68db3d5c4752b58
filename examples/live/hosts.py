#!/usr/bin/env python3
"""examples/live/hosts.py FOLDER

Three hosts of one cluster on this machine, in this new folder, until they are interrupted. For the scripts beside it: how hosts are started,
who signs the journal, and how a node is killed, paused or sent a message."""
import os
import pathlib
import signal
import subprocess
import sys
import time

sys.dont_write_bytecode = True
sys.path[:0] = [str(pathlib.Path(__file__).resolve().parents[2] / "lib"), "/usr/share/quorumd/lib"]
import usage
from traces import program

HERE = pathlib.Path(__file__).resolve().parent
IDS = (1, 2, 3)
TIMES = "2500,3900,400,800,500"  # short ones; a take-over takes some six seconds, and a resource goes on for more than three loops
WATCHDOG = "2.5"  # seconds, as the times say
REBOOTS = {1: ["2"], 2: ["5"], 3: ["9"]}  # seconds: a host may be back before another node took over, or later
FRESH = 0.5  # seconds: whoever signed within them holds the resource
PATIENCE = 90  # seconds


class NotSo(Exception):
    """What was waited for in vain."""


def wait_for(what, test):
    """The first answer of the test that is true."""
    end = time.monotonic() + PATIENCE
    while not (found := test()):
        if time.monotonic() > end:
            raise NotSo("after %d seconds still not: %s" % (PATIENCE, what))
        time.sleep(0.05)
    return found


def new_folder(word):
    """The folder of this name, which is made."""
    folder = pathlib.Path(word)
    try:
        folder.mkdir()
    except FileExistsError:
        raise usage.WrongWords("%s is there: say a new folder" % word) from None
    return folder


class Hosts:
    """Three hosts, in a folder. `with Hosts(folder) as hosts:` switches them on, and all off at its end. `reboots` has for each the seconds
    after which it boots again; where there are none it stays off until it is switched on."""

    def __init__(self, folder, reboots=None):
        self.program = program()
        self.folder, self.reboots = new_folder(folder), reboots or {}
        nodes = "".join(" node {\n  nodeid: %d\n }\n" % ident for ident in IDS)
        (self.folder / "conf").write_text("nodelist {\n%s}\nquorum {\n provider: corosync_votequorum\n}\n" % nodes)
        with open(self.folder / "conf") as settings:
            self.quorumd("create", "--timing", TIMES, stdin=settings)
        (self.folder / "journal").touch()
        self.port = str(13000 + 3 * (os.getpid() % 2000))
        self.began = time.monotonic()
        self.hosts = {}

    def __enter__(self):
        for ident in IDS:
            self.switch_on(ident)
        return self

    def __exit__(self, *_):
        signal.signal(signal.SIGINT, signal.SIG_IGN)  # nobody interrupts the end
        for host in self.hosts.values():
            host.terminate()
        for host in self.hosts.values():
            host.wait()

    def quorumd(self, command, *words, stdin=subprocess.DEVNULL):
        done = subprocess.run([self.program, command, "--image", self.folder / "disk", *words], stdin=stdin, stdout=subprocess.PIPE, check=True)
        return done.stdout.decode()

    def say(self, what):
        print("%8.2f > %s" % (time.monotonic() - self.began, what), flush=True)

    def switch_on(self, ident):
        words = [sys.executable, HERE / "host", str(ident), self.folder, self.port, WATCHDOG, *self.reboots.get(ident, [])]
        self.hosts[ident] = subprocess.Popen(words, env=dict(os.environ, BEGAN=str(self.began), QUORUMD=self.program))

    def holder(self):
        """Who signs the journal at present; None where nobody does."""
        last = (self.folder / "journal").read_bytes()[-100:].splitlines()[-1:]
        time_of_last, ident = last[0].split() if last else (0, 0)
        return int(ident) if time.monotonic() - self.began - float(time_of_last) < FRESH else None

    def other_holder(self, *than):
        """Waits until a node holds that is none of these."""
        def other():
            holder = self.holder()
            return None if holder in than else holder
        return wait_for("a holder that is none of %s" % (than,), other)

    def is_up(self, ident):
        """Whether the node runs, has claimed its slot and emptied its mailbox, and knows no deadly message."""
        line = self.quorumd("list").splitlines()[IDS.index(ident)]
        return self.pid(ident) is not None and " dirty mail empty" in line

    def pid(self, ident):
        """The process of the node; None where its host is off."""
        try:
            return int((self.folder / ("pid.%d" % ident)).read_text())
        except (FileNotFoundError, ValueError):  # it is off, or just being written
            return None

    def send(self, ident, number, what):
        """Sends a signal to the node, and says so; whether its host is on."""
        pid = self.pid(ident)
        if pid is None:
            return False
        try:
            os.kill(pid, number)
        except ProcessLookupError:
            return False
        self.say(what % ident)
        return True

    def kill(self, ident):
        return self.send(ident, signal.SIGKILL, "kill -9 the node of host %d")

    def pause(self, ident):
        return self.send(ident, signal.SIGSTOP, "pause the node of host %d")

    def wake(self, ident):
        return self.send(ident, signal.SIGCONT, "the node of host %d goes on")

    def message(self, ident, kind):
        self.say("message --id %d --kind %s" % (ident, kind))
        self.quorumd("message", "--id", str(ident), "--kind", kind)


def started(main, text, words):
    """The status of a script of hosts, as `usage.started`; what was waited for in vain is said."""
    try:
        usage.started(main, text, words)
    except NotSo as wrong:
        sys.exit("%s: %s" % (pathlib.Path(sys.argv[0]).name, wrong))


def main(words):
    with Hosts(*usage.counted(words, 1, 1), REBOOTS) as hosts:
        try:
            signal.pause()
        except KeyboardInterrupt:
            hosts.say("the hosts are switched off")


if __name__ == "__main__":
    started(main, __doc__, sys.argv[1:])
