"""For the scripts of this folder that run nodes: free ports, clusters in folders, nodes with what they said, and agents of a resource.

Nothing here compares times more tightly than a machine with much other work allows: a test waits until something is so, and fails
only where that takes longer than PATIENCE."""
import atexit
import concurrent.futures
import os
import pathlib
import re
import shutil
import signal
import socket
import subprocess
import sys
import threading
import time

QUORUMD = os.environ["QUORUMD"]
PATIENCE = 90  # seconds
ALL = int(os.environ.get("TEST_SECONDS", "110"))  # seconds, after which a script gives up: less than tests/run lets it have
TURNS = 20000  # of a node that nobody ends: about a quarter of an hour
LONG_LOOP = "500,2100,1000,1000,500"  # a node that the machine lets wait for less than three loops is not taken for a dead one
WARNINGS = (": a file or a pipe: it resets nothing", ": nothing was there, and an empty file was made",
            "packets carry no seal: any user of this host can forge them")
ADVICE = ("quorumctl ", " of the documentation ", "mend what the line before this one names")  # in lines that say what can be done about a fault
PLAIN = {name: value for name, value in os.environ.items() if name != "JOURNAL_STREAM"}  # with that, lines begin with their level
RESERVED = []  # a TCP socket for each UDP port that a script uses, so that two scripts never use the same one
STARTED = []
INSIDE = "INSIDE_NETWORK_NAMESPACE"


def without_advice(said):
    """What a program said on standard error, without what can be done about a fault."""
    return "".join(line for line in said.splitlines(True) if not any(words in line for words in ADVICE))


class Wrong(Exception):
    """What was not as it should be."""


def same(what, got, wanted):
    if got != wanted:
        raise Wrong("%s\n  wanted %r\n  got    %r" % (what, wanted, got))


def wait_for(what, test):
    """The first answer of the test that is true."""
    end = time.monotonic() + PATIENCE
    while True:
        found = test()
        if found:
            return found
        if time.monotonic() > end:
            raise Wrong("after %d seconds still not: %s" % (PATIENCE, what))
        time.sleep(0.02)


def as_nobody():
    """The words before a program that may not write everywhere: root starts a copy of it as nobody, in a folder that nobody may enter."""
    global QUORUMD
    if os.getuid() != 0:
        return ()
    os.chmod(".", 0o755)
    QUORUMD = str(shutil.copy(QUORUMD, pathlib.Path("program").absolute()))
    return "setpriv", "--reuid=65534", "--regid=65534", "--clear-groups"


def in_namespace(tried):
    """Whether the script runs in a network namespace in which this command of a shell succeeds: it is started again in one, as root or as a user of
    a namespace of its own, where there is such a one."""
    if INSIDE in os.environ:
        return True
    for words in "-n", "-rn":
        if subprocess.run(["sh", "-c", "unshare %s sh -c '%s'" % (words, tried)], capture_output=True, check=False).returncode == 0:
            os.environ[INSIDE] = "yes"
            os.execvp("unshare", ["unshare", words, sys.executable, "-B", *sys.argv])
    return False


def in_package_folders():
    """Whether the script has /run/quorumd and /var/lib/quorumd to itself: it is started again in a name space of mounts, as root or as a user of a name space of its own, where
    there is such a one."""
    if INSIDE in os.environ:
        return True
    made = "mount -t tmpfs none /run && mount -t tmpfs none /var/lib && mkdir /run/quorumd /var/lib/quorumd"
    for words in "-m", "-rm":
        if subprocess.run(["unshare", words, "sh", "-c", made], capture_output=True, check=False).returncode == 0:
            os.environ[INSIDE] = "yes"
            os.execvp("unshare", ["unshare", words, "sh", "-c", made + ' && exec "$@"', "sh", sys.executable, "-B", *sys.argv])
    print("skipped: no name space of mounts is to be had here")
    return False


def milliseconds():
    """The time of the clock that nodes read too."""
    return time.clock_gettime_ns(time.CLOCK_MONOTONIC_RAW) // 1000000


def used_ports():
    """The UDP ports that sockets of this host use."""
    tables = [path.read_text().splitlines()[1:] for path in map(pathlib.Path, ("/proc/net/udp", "/proc/net/udp6")) if path.exists()]
    return {int(line.split()[1].rpartition(":")[2], 16) for lines in tables for line in lines}


def free_ports(count):
    """The first of so many UDP ports of 127.0.0.1 that nobody uses. A cluster has 33 of them, those of 32 ranks and of an arbiter: to each a node of one
    host tells how it is. No UDP socket is opened: a program that another thread starts at that moment has it too until it begins, and a node would find its port in use."""
    count = max(count, 33)
    for attempt in range(2000):
        first = 20000 + (os.getpid() * 7 + attempt * 13) % 10000
        ports = range(first, first + count)
        if not used_ports().isdisjoint(ports):
            continue
        sockets = []
        try:
            for port in ports:
                sockets.append(socket.socket(socket.AF_INET, socket.SOCK_STREAM))
                sockets[-1].bind(("127.0.0.1", port))
        except OSError:
            for each in sockets:
                each.close()
            continue
        RESERVED.extend(sockets)
        return first
    raise Wrong("no %d free ports" % count)


def free_tcp_port():
    """A port of 127.0.0.1 that a server of this script may bind by TCP. Those after it stay reserved."""
    port = free_ports(1)
    reserved = next(each for each in RESERVED if each.getsockname()[1] == port)
    RESERVED.remove(reserved)
    reserved.close()
    return port


HALTS = {"reset": 2, "off": 3, "crashdump": 5}  # the code that a halt is made with
MOST_OF_A_PATH = 100  # bytes of a path in the line of an opening


def event_of(line):
    """The words of a line of a journal by their keys, or None where it is none."""
    if not re.match(r"(<\d>)?quorumd: node=", line):
        return None
    return {key: quoted or plain for key, plain, quoted in re.findall(r' ([a-z-]+)=(?:([^ "=]+)|"([^"]*)")', line)}


def shown(path):
    """A path as the line of an opening has it."""
    escaped = b""
    for byte in path.encode():
        one = bytes([byte]) if byte > 32 and byte not in b'"%=\x7f' else b"%%%02X" % byte
        if len(escaped) + (4 if byte >= 192 else len(one)) > MOST_OF_A_PATH:
            break
        escaped += one
    return escaped.decode()


def done_of(event):
    """What a node did, as a test names it: an opening, a start, a stop, a disarm, a halt, and packets that were refused; None: another event."""
    outcome = {"yes": "ok", "no": "failed"}.get(event.get("ok"))
    if event["event"] == "open":
        return "open port %(port)s image %(image)s resource %(resource)s watchdog %(watchdog)s: " % event + outcome
    if event["event"] in ("start", "stop", "disarm"):
        return "%s: %s" % (event["event"], outcome)
    if event["event"] == "halt":
        cause = event["cause"]
        return "halt %d: ok" % (10 + int(cause.removeprefix("boot-")) if cause.startswith("boot-") else HALTS[cause])
    if event["event"] == "packets-refused" and "unsealed" in event:
        return "refused " + " ".join("%s=%s" % (key, event[key]) for key in ("count", "unsealed", "astray", "old", "elsewhere"))
    return None


class Cluster:
    """Settings and an image in a folder of their own, and the nodes that were started of them."""

    COMMAND = "node"
    IMAGES = ("disk",)
    BEFORE = ("--open",)  # what stands before the command of its nodes: without a word a line says that packets carry no seal

    def __init__(self, name, ids=(1, 2, 3), timing=LONG_LOOP):
        self.folder = pathlib.Path(name).absolute()
        self.folder.mkdir()
        self.use_images()
        self.image = self.images[0]
        nodes = "".join("node {\nnodeid: %d\n%s}\n" % (ident, self.place(ident)) for ident in ids)
        (self.folder / "conf").write_text("nodelist {\n%s}\nquorum {\nprovider: corosync_votequorum\n}\n" % nodes)
        self.port, self.started = self.first_port(len(ids)), 0
        for image in self.images:
            with open(self.folder / "conf") as settings:
                created = self.quorumd("create", "--timing", timing, stdin=settings, image=image)
            same("create", created, (0, "created nodes %d\n" % len(ids)))

    def use_images(self):
        """The images of the cluster: empty files."""
        self.images = [self.folder / image for image in self.IMAGES]
        for image in self.images:
            image.touch()

    def first_port(self, count):
        return free_ports(count)

    def place(self, ident):
        """What the section of a node says of where it is."""
        return ""

    def quorumd(self, command, *words, stdin=subprocess.DEVNULL, image=None):
        """The status and the output of a command on an image, the first one where none is given."""
        words = [QUORUMD, command, "--image", str(image or self.image), *words]
        done = subprocess.run(words, stdin=stdin, stdout=subprocess.PIPE, check=False)
        return done.returncode, done.stdout.decode()

    def message(self, ident, kind, images=None):
        """Leaves a message to a node on these images, or on all."""
        for image in images or self.images:
            sent = self.quorumd("message", "--id", str(ident), "--kind", kind, image=image)
            same("message", sent, (0, "sent %s to %d\n" % (kind, ident)))

    def listed(self, ident, image=None):
        """What `list` says of a node."""
        status, text = self.quorumd("list", image=image)
        same("list", status, 0)
        return re.search(r"(?m)^node %d (.*)$" % ident, text)[1]

    def resource(self, ident):
        return self.bytes_of("resource.%d" % ident)

    def watchdog(self, ident):
        return self.bytes_of("watchdog.%d" % ident)

    def bytes_of(self, name):
        path = self.folder / name
        return path.read_bytes().decode() if path.exists() else None

    def node(self, ident, **given):
        return Node(self, ident, **given)

    def has_written_reset(self, by, to, image=None):
        """Whether the mailbox of the node holds a reset that the other node wrote."""
        return re.search(r" mail reset by %d:\d+$" % by, self.listed(to, image=image))


class TripleCluster(Cluster):
    """The same with three images."""

    COMMAND = "node3"
    IMAGES = ("disk.1", "disk.2", "disk.3")


class Node:
    """A node that was started. What it says is kept in files."""

    def __init__(self, cluster, ident, watchdog=None, resource=None, image=None, port=None, more=(), before=None, turns=TURNS, run_as=(), errors=None, conf="conf"):
        self.cluster, self.ident = cluster, ident
        given_paths = {"watchdog": watchdog, "resource": resource}
        words = {
            "id": ident,
            "image": image or ",".join(map(str, cluster.images)),
            "watchdog": watchdog or cluster.folder / ("watchdog.%d" % ident),
            "resource": resource or cluster.folder / ("resource.%d" % ident),
            "port": port or cluster.port,
            "turns": turns,
        }
        self.words = {name: str(value) for name, value in words.items()}
        before = cluster.BEFORE if before is None else before
        if before:  # with such a word nothing is made
            for name in "watchdog", "resource":
                if not given_paths[name]:
                    pathlib.Path(self.words[name]).touch()
        cluster.started += 1
        number = cluster.started
        self.log, self.answer = cluster.folder / ("log.%d" % number), cluster.folder / ("answer.%d" % number)
        options = [word for name, value in self.words.items() for word in ("--" + name, value)]
        with open(cluster.folder / conf) as settings, open(self.log, "w") as log, open(self.answer, "w") as answer:
            self.process = subprocess.Popen([*run_as, QUORUMD, *before, cluster.COMMAND, *options, *more], stdin=settings, stdout=answer, stderr=errors or log, env=PLAIN)
        STARTED.append(self.process)

    def events(self, *names):
        """The events of its journal so far, of these names where some are given."""
        return [event for event in map(event_of, self.log.read_text().splitlines()) if event and (not names or event["event"] in names)]

    def said(self):
        """What it did and the system's own words, in the order of its lines on standard error; but no warning of an opening."""
        lines = [done_of(event_of(line)) if event_of(line) else line.removeprefix("quorumd: ") for line in self.log.read_text().splitlines()]
        return [line for line in lines if line and not line.endswith(WARNINGS) and " did not boot: " not in line]

    def opened(self):
        """What it says of its opening, without its end."""
        port = int(self.words["port"]) + self.ident - 1
        return "open port %d image %s resource %s watchdog %s: " % (port, *(shown(self.words[name]) for name in ("image", "resource", "watchdog")))

    def ticks(self, line):
        """The ticks of such things in its journal."""
        return [int(event["tick"]) for event in self.events() if done_of(event) == line]

    def waits_for(self, line):
        """Waits until it says this, and gives the tick of the first such line."""
        def looked():
            ticks = self.ticks(line)
            if not ticks and self.process.poll() is not None:
                raise Wrong("node %d ended before %r: %r, %r" % (self.ident, line, self.answer.read_text(), self.said()))
            return ticks
        return wait_for("node %d says %r" % (self.ident, line), looked)[0]

    def end(self):
        """Its status and its line, once it has ended."""
        try:
            status = self.process.wait(PATIENCE)
        except subprocess.TimeoutExpired as late:
            raise Wrong("node %d goes on: %r" % (self.ident, self.said())) from late
        return status, self.answer.read_text()

    def runs(self):
        return self.process.poll() is None

    def kill(self, number=signal.SIGKILL):
        self.process.send_signal(number)


class Agent:
    """An agent behind a Unix socket. `answers(line, number)` gives the bytes of the answer to the line of the connection of that number,
    from 1, or None for no answer; then the connection is closed. It keeps the lines that it was sent."""

    def __init__(self, path, answers=None):
        self.path, self.answers, self.lines = path, answers, []
        self.listener = socket.socket(socket.AF_UNIX)
        self.listener.bind(str(path))
        self.listener.listen()
        threading.Thread(target=self.serve, daemon=True).start()

    def serve(self):
        while True:
            connection, _ = self.listener.accept()
            line = connection.makefile("rb").readline().decode()
            self.lines.append(line)
            answer = self.answers(line, len(self.lines))
            try:
                connection.sendall(answer or b"")
            except OSError:  # the node gave up
                pass
            connection.close()

    def word(self):
        return "unix:%s" % self.path


class Program(Agent):
    """A program behind a Unix socket: it is started for each connection, which is its standard input and output."""

    def __init__(self, path, words):
        self.words = words
        super().__init__(path)

    def serve(self):
        while True:
            connection, _ = self.listener.accept()
            subprocess.Popen(self.words, stdin=connection, stdout=connection)
            connection.close()


def end_all():
    for process in STARTED:
        if process.poll() is None:
            process.kill()


atexit.register(end_all)


def gives_up(number, _):
    end_all()
    print("no end in %d seconds" % ALL if number == signal.SIGALRM else "told to end", flush=True)
    os._exit(1)


signal.signal(signal.SIGTERM, gives_up)


def tried(test):
    """None, or what was wrong."""
    try:
        test()
        return None
    except Wrong as wrong:
        return "%s: %s" % (test.__name__, wrong)


def try_all(*tests):
    """Tries all of them at the same time, and ends the script with 1 where one is wrong."""
    signal.signal(signal.SIGALRM, gives_up)
    signal.alarm(ALL)
    with concurrent.futures.ThreadPoolExecutor(len(tests)) as pool:
        wrong = [said for said in pool.map(tried, tests) if said]
    if wrong:
        print("\n".join(wrong))
        sys.exit(1)
