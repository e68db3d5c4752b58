"""For bench/arbiter: two nodes and an arbiter, each in a network namespace of its own, and a relay between them, through which each of their packets goes. A node's
resource is a file, which the supervisor of contrib/ makes and removes by an agent. Root alone can have such hosts."""
import ctypes
import heapq
import itertools
import os
import pathlib
import selectors
import socket
import subprocess
import sys
import threading
import time

from live import PLAIN, QUORUMD, STARTED, Wrong, event_of, milliseconds, wait_for

TOP = pathlib.Path(__file__).resolve().parent.parent
NODES, ARBITER, SPARE = ("1", "2"), "arbiter", "spare"  # at the spare a second arbiter runs, where a scene has one
PORT, TIMEOUT, LIMIT, LEASE, LOOP, MSGWAIT = 7400, 10000, 2000, 12244, 1000, 10000
TIMES = "5000,10000,1000,2000,1000"
PLACE = {"1": ("127.0.3.1", PORT), "2": ("127.0.3.2", PORT + 1), ARBITER: ("127.0.3.9", PORT + 32)}
CONF = """nodelist {
node {
nodeid: 1
ring0_addr: 127.0.3.1
}
node {
nodeid: 2
ring0_addr: 127.0.3.2
}
}
quorum {
provider: corosync_votequorum
device {
model: net
votes: 1
timeout: %d
net {
host: 127.0.3.9
}
}
}
""" % TIMEOUT
AGENT = """#!/bin/sh
f=$OCF_RESKEY_file
case $1 in
start) echo start >> "$f.said"; touch "$f" ;;
stop) [ ! -e "$f" ] || echo stop >> "$f.said"; rm -f "$f" ;;
monitor) [ -e "$f" ] || exit 7 ;;
esac
"""
NEW_NETWORK = 0x40000000  # CLONE_NEWNET
LIBC = ctypes.CDLL(None, use_errno=True)


def entered(namespace):
    if LIBC.setns(namespace, NEW_NETWORK) != 0:
        raise OSError(ctypes.get_errno(), "setns")


def new_namespace():
    """A descriptor of a new network namespace, whose loopback is up. This process is in it afterwards."""
    if LIBC.unshare(NEW_NETWORK) != 0:
        raise OSError(ctypes.get_errno(), "unshare")
    subprocess.run(["ip", "link", "set", "lo", "up"], check=True)
    return os.open("/proc/self/ns/net", os.O_RDONLY)


class Network:
    """The hosts, and what becomes of a packet between two of them: `passes(way, packet)` gives the moments, in seconds from now, and the packets that are
    handed on; it is called for one packet at a time. `serving` has the host to which a node's polls go, and that of the arbiter for all others."""

    def __init__(self):
        self.namespaces, self.sockets, self.serving = {}, {}, {ARBITER: ARBITER}
        self.passes = lambda way, packet: [(0, packet)]
        self.waiting, self.number, self.lock = [], itertools.count(), threading.Lock()
        self.selector = selectors.DefaultSelector()
        for host in (*NODES, ARBITER, SPARE):
            self.namespaces[host] = new_namespace()
            for other, place in PLACE.items():
                if other != host and (other != ARBITER or host != SPARE):
                    self.sockets[host, other] = self.bound(place, (host, other))
        threading.Thread(target=self.serve, daemon=True).start()

    def bound(self, place, name):
        udp = socket.socket(socket.AF_INET, socket.SOCK_DGRAM)
        udp.bind(place)
        udp.setblocking(False)
        self.selector.register(udp, selectors.EVENT_READ, name)
        return udp

    def hand_on(self, way, packet, after=0.0):
        """A packet of that way comes after so many seconds."""
        with self.lock:
            heapq.heappush(self.waiting, (time.monotonic() + after, next(self.number), way, packet))

    def serve(self):
        while True:
            with self.lock:
                due = self.waiting[0][0] - time.monotonic() if self.waiting else 0.05
            for key, _ in self.selector.select(max(0, min(due, 0.05))):
                self.take(key)
            self.send_due()

    def take(self, key):
        at, to = key.data
        try:
            packet = key.fileobj.recv(4096)
        except OSError:
            return
        at = ARBITER if at == SPARE else at
        for after, one in self.passes((at, to), packet):
            self.hand_on((at, to), one, after)

    def send_due(self):
        while True:
            with self.lock:
                if not self.waiting or self.waiting[0][0] > time.monotonic():
                    return
                _, _, (sender, to), packet = heapq.heappop(self.waiting)
            host = self.serving.get(sender, self.serving[ARBITER]) if to == ARBITER else to
            try:
                self.sockets[host, sender].sendto(packet, PLACE[to])
            except OSError:
                pass  # nobody listens there

    def start(self, host, words, **given):
        """A process of that host."""
        process = subprocess.Popen(words, preexec_fn=lambda: entered(self.namespaces[host]), **given)
        STARTED.append(process)
        return process


class Host:
    """A host of a node: its node, and the supervisor of its resource."""

    def __init__(self, lab, ident):
        self.lab, self.ident, self.folder = lab, ident, lab.folder / ident
        self.killed = None
        for path, text in ("ocf/resource.d/t/File", AGENT), ("bin/systemctl", "#!/bin/sh\nexit 0\n"):
            (self.folder / path).parent.mkdir(parents=True, exist_ok=True)
            (self.folder / path).write_text(text)
            (self.folder / path).chmod(0o755)
        (self.folder / "bin/quorumctl").symlink_to(os.environ["QUORUMCTL"])
        (self.folder / "run").mkdir()
        (self.folder / "agent.env").write_text("AGENT=group\n")
        (self.folder / "resources").write_text("[file]\nagent = ocf:t:File\nfile = %s\n" % (self.folder / "owned"))
        (self.folder / "watchdog").touch()
        self.log = self.folder / "log"

    def begin(self):
        at = self.folder
        given = {**PLAIN, "OCF_ROOT": str(at / "ocf"), "QUORUMD_RESOURCES": str(at / "resources"), "QUORUMD_RUN": str(at / "run"),
                 "QUORUMD_AGENT_ENV": str(at / "agent.env"), "PATH": "%s:%s" % (at / "bin", os.environ["PATH"])}
        with open(at / "supervised", "w") as said:
            self.supervisor = subprocess.Popen([sys.executable, "-B", str(TOP / "contrib/quorumd-resource"), "run"], stdin=subprocess.DEVNULL, stdout=said, stderr=said, env=given)
        STARTED.append(self.supervisor)
        wait_for("the supervisor of host %s" % self.ident, (at / "run/agent.sock").exists)
        words = ["--status", str(at / "status"), *self.lab.sealed, "node", "--id", self.ident, "--image", str(self.lab.image), "--watchdog", str(at / "watchdog"),
                 "--resource", "unix:%s" % (at / "run/agent.sock"), "--port", str(PORT), "--turns", "1000000"]
        with open(self.lab.conf) as text, open(self.log, "w") as log, open(at / "answer", "w") as answer:
            self.node = self.lab.network.start(self.ident, [QUORUMD, *words], stdin=text, stdout=answer, stderr=log, env=PLAIN)

    def dies(self):
        """The machine is dead at once."""
        self.killed = milliseconds()
        for process in self.node, self.supervisor:
            process.kill()
            process.wait()
        (self.folder / "owned").unlink(missing_ok=True)

    def events(self, *names):
        return [event for event in map(event_of, self.log.read_text().splitlines()) if event and (not names or event["event"] in names)]

    def acts(self):
        """What the agent of the resource did."""
        said = self.folder / "owned.said"
        return said.read_text().split() if said.exists() else []

    def ended(self):
        """The tick at which it held and counted no more, or None."""
        ends = [int(event["tick"]) for event in self.events("halt", "end")]
        return min(ends + [self.killed] if self.killed else ends, default=None)


class Lab:
    """Two hosts and an arbiter, of which host 1 owns; each has heard the arbiter's yes."""

    def __init__(self, folder):
        self.folder = pathlib.Path(folder).absolute()
        self.folder.mkdir()
        self.conf, self.image, key = (self.folder / name for name in ("conf", "disk", "key"))
        self.conf.write_text(CONF)
        self.image.touch()
        key.write_bytes(os.urandom(64))
        key.chmod(0o600)
        self.sealed = ["--links", str(self.conf), "--key", str(key)]
        with open(self.conf) as text:
            subprocess.run([QUORUMD, "create", "--image", str(self.image), "--timing", TIMES], stdin=text, stdout=subprocess.DEVNULL, stderr=subprocess.DEVNULL, check=True)
        self.network = Network()
        self.arbiters = []
        self.hosts = {ident: Host(self, ident) for ident in NODES}

    def start(self):
        self.arbiter = self.new_arbiter()
        self.hosts["1"].begin()
        wait_for("host 1 is up", lambda: self.hosts["1"].events("claimed"))
        self.hosts["2"].begin()
        for host in self.hosts.values():
            wait_for("a yes to host %s" % host.ident, lambda host=host: self.answers(host)[-1:] == ["yes"])
        wait_for("host 1 owns", lambda: (self.hosts["1"].folder / "owned").exists())
        time.sleep(2 * LOOP / 1000 + os.getpid() % 100 * LOOP / 1e5)
        return self

    def new_arbiter(self, at=ARBITER):
        number = len(self.arbiters)
        log = self.folder / ("arbiter.%d" % number)
        words = [QUORUMD, "--status", str(self.folder / ("arbiter-status.%d" % number)), *self.sealed, "arbiter", "--port", str(PORT)]
        with open(self.conf) as text, open(log, "w") as said:
            process = self.network.start(at, words, stdin=text, stdout=subprocess.DEVNULL, stderr=said, env=PLAIN)
        process.log = log
        self.arbiters.append(process)
        wait_for("the arbiter is open", lambda: "event=arbiter-open" in log.read_text())
        return process

    def end(self):
        for process in STARTED:
            if process.poll() is None:
                process.kill()
        for process in STARTED:
            process.wait()

    @staticmethod
    def answers(host):
        return [event["answer"] for event in host.events("device")]

    # ---- what is so

    def quorate(self, host):
        """The spans in which a host was quorate, with the members of its view, in its ticks."""
        spans, since, seen = [], None, None
        for event in host.events():
            if "quorate" not in event:
                continue
            tick, members = int(event["tick"]), tuple(event["members"].split(",")) if "members" in event else seen
            if since is not None and (event["quorate"] == "no" or members != seen):
                spans.append((since, tick, seen))
                since = None
            if event["quorate"] == "yes" and since is None:
                since = tick
            seen = members
        end = host.ended() or milliseconds()
        return spans + [(since, end, seen)] if since is not None and since < end else spans

    def both_apart(self):
        """The milliseconds in which both hosts were quorate with views that have no member in common."""
        return sum(max(0, min(end, other_end) - max(begin, other_begin))
                   for begin, end, members in self.quorate(self.hosts["1"]) for other_begin, other_end, others in self.quorate(self.hosts["2"])
                   if members and others and not set(members) & set(others))

    def owned(self, host):
        """The spans in which a host owned the resource: to None where it still does."""
        ends = sorted([int(event["tick"]) for event in host.events("stop", "disarm") if event["ok"] == "yes"] + [host.ended()] * (host.ended() is not None))
        begins = [int(event["tick"]) for event in host.events("hold-won")]
        return [(begin, min((end for end in ends if end >= begin), default=None)) for begin in begins]

    def overlap(self):
        """The milliseconds in which both owned."""
        now = milliseconds()
        return sum(max(0, min(end or now, other_end or now) - max(begin, other_begin))
                   for begin, end in self.owned(self.hosts["1"]) for other_begin, other_end in self.owned(self.hosts["2"]))

    def without_owner(self):
        """The longest time without an owner in milliseconds, from the first one on, and to now where there is none now."""
        now = milliseconds()
        spans = sorted((begin, end or now) for host in self.hosts.values() for begin, end in self.owned(host))
        longest, until = 0, spans[0][1]
        for begin, end in spans[1:]:
            longest, until = max(longest, begin - until), max(until, end)
        return max(longest, now - until)

    def has_reset(self, by, to):
        listed = subprocess.run([QUORUMD, "list", "--image", str(self.image)], capture_output=True, text=True, check=True).stdout
        return any(line.startswith("node %s " % to) and " mail reset by %s:" % by in line for line in listed.splitlines())

    def needs(self, what, so):
        if not so:
            raise Wrong(what)
