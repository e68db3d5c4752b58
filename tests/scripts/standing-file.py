"""Nodes whose hosts say whether they may hold, in the file of --standing-file and by the keys of the text of --links: the lines of the file, what is refused of it,
which keys are refused, who holds then, what the journal and the status file say, and that no datagram says so. A record of such a run is taken by `audit`."""
import json
import os
import socket
import subprocess
import time

from live import QUORUMD, Cluster, Node, event_of, same, try_all, wait_for

NOTHING = {"standby": "off", "fit": "yes", "pull": "off", "weight": "0"}
REFUSED = (  # a file, and what is said of it
    (b"standby\n", {"line": "1"}),
    (b"standby yes\n", {"line": "1"}),
    (b"Standby on\n", {"line": "1"}),
    (b" standby on\n", {"line": "1"}),
    (b"standby on \n", {"line": "1"}),
    (b"standby  on\n", {"line": "1"}),
    (b"standby on\r\n", {"line": "1"}),
    (b"standby on\0\n", {"line": "1"}),
    (b"fit yes\n\nfit off\n", {"line": "3"}),
    (b"fit yes\npull no\n", {"line": "2"}),
    (b"fit yes\nfit yes\n", {"line": "2"}),
    (b"pull off\nstandby off\npull off\n", {"line": "3"}),
    (b"weight 1\nweight 1\n", {"line": "2"}),
    (b"weight 255\n", {"line": "1"}),
    (b"weight -1\n", {"line": "1"}),
    (b"weight \n", {"line": "1"}),
    (b"weight 1 2\n", {"line": "1"}),
    (b"weight 000000000000000000001\n", {"line": "1"}),
    (b"\xff\n", {"line": "1"}),
    (b"\xef\xbb\xbffit yes\n", {"line": "1"}),
    (b"\n" * 257, {"why": "length"}),
    (None, {"why": "file"}),
)
TAKEN = (  # a file, and what it says
    (b"standby on\n", {"standby": "on"}),
    (b"standby off\nfit no", {"fit": "no"}),
    (b"\n\nweight 254\n\nstandby on\n", {"standby": "on", "weight": "254"}),
    (b"pull on\nweight 7\nfit yes\nstandby off\n", {"pull": "on", "weight": "7"}),
    (b"weight 00000000000000000012\npull on\nfit no\nstandby on\n", {"standby": "on", "fit": "no", "pull": "on", "weight": "12"}),
    (b"weight 1" + b"\n" * 248, {"weight": "1"}),
)


def words_of(event):
    return {key: event[key] for key in NOTHING}


class Standing(Node):
    """A node with a standing file in the folder of its cluster."""

    def __init__(self, cluster, ident, text=None, words=("--open",), **given):
        self.file = cluster.folder / ("standing.%d" % ident)
        self.status = cluster.folder / ("status.%d" % ident)
        if text is not None:
            self.says(text)
        super().__init__(cluster, ident, before=(*words, "--standing-file", str(self.file), "--status", str(self.status)), **given)

    def says(self, text):
        """Its host says this from now on; None: in a folder in place of a file."""
        if self.file.is_dir():
            self.file.rmdir()
        if text is None:
            self.file.unlink(missing_ok=True)
            self.file.mkdir()
            return
        new = self.file.with_name(self.file.name + ".new")
        new.write_bytes(text)
        os.rename(new, self.file)

    def told(self):
        """What its journal says of it so far."""
        return [words_of(event) for event in self.events("standing")]

    def tells(self, **words):
        """Waits until the last that its journal says of it is this."""
        wanted = dict(NOTHING, **words)
        wait_for("node %d tells %r" % (self.ident, wanted), lambda: self.told()[-1:] == [wanted])

    def shown(self):
        """The object of its status file."""
        return json.loads(wait_for("a status", lambda: self.status.exists() and self.status.read_text()))

    def holds(self):
        return self.shown()["holds"]

    def waits_to_hold(self):
        wait_for("node %d holds" % self.ident, self.holds)

    def waits_for_view(self, members, candidate):
        wait_for("node %d has the view %r %r" % (self.ident, members, candidate),
                 lambda: (self.shown()["view"] or {}).items() >= {"members": members, "candidate": candidate}.items())


def three(name, texts=(b"", b"", b"")):
    cluster = Cluster(name)
    return [Standing(cluster, ident, text) for ident, text in enumerate(texts, 1)]


def each_file():
    """Each file is taken, or makes the node unfit; a node that holds alone goes on all the while, but where it is on standby."""
    node = Standing(Cluster("files", ids=(1,)), 1)
    node.waits_to_hold()
    same("no file says nothing", (node.told(), "standing" in node.shown()), ([], False))
    for number, (text, words) in enumerate(REFUSED, 1):
        node.says(text)
        node.tells(fit="no")
        refused = node.events("standing-refused")
        same("refused of %r" % text, (len(refused), {key: refused[-1].get(key) for key in words}), (number, words))
        same("level", refused[-1]["level"], "4")
        node.says(b"")
        node.tells()
    same("it holds on", (node.holds(), node.events("hold-lost")), (True, []))
    for text, words in TAKEN:
        node.says(text)
        node.tells(**words)
        said = dict(NOTHING, **words)
        wanted = {"fit": said["fit"] == "yes", "pull": said["pull"] == "on", "standby": said["standby"] == "on", "weight": int(said["weight"])}
        wait_for("the status shows it", lambda: node.shown().get("standing") == wanted)
    node.file.unlink()
    node.tells()
    wait_for("the status shows nothing", lambda: "standing" not in node.shown())
    same("refused once each", len(node.events("standing-refused")), len(REFUSED))


def refused_from_the_start():
    """A node that begins with a file that is none is unfit, and starts once it is mended. A refusal that stands is told once."""
    node = Standing(Cluster("unfit", ids=(1,)), 1, b"standby maybe\n")
    node.tells(fit="no")
    wait_for("nobody is chosen", lambda: node.shown()["why"] == "not-chosen:0")
    time.sleep(2)
    node.says(b"fit yes\nfit no\n")
    time.sleep(2)
    same("told once", [event["line"] for event in node.events("standing-refused")], ["1"])
    same("never held", node.events("hold-won"), [])
    node.says(b"fit yes\n")
    node.waits_to_hold()
    same("told", node.told(), [dict(NOTHING, fit="no"), NOTHING])


class Linked(Cluster):
    """One node, with these lines more in its section."""

    def __init__(self, name, keys):
        self.keys = keys
        super().__init__(name, ids=(1,))

    def place(self, ident):
        return "ring0_addr: 127.0.0.1\n" + self.keys

    def node(self, ident, **given):
        return Standing(self, ident, words=("--open", "--links", str(self.folder / "conf")), **given)


def keys_alone():
    """The keys count at the first look, without a file too; the last value of a key does."""
    node = Linked("keys", "standby: no\nlocation_score: 9\nstandby: yes\nlocation_score: 0254\n").node(1)
    node.tells(standby="on", weight="254")
    wait_for("nobody is chosen", lambda: node.shown()["why"] == "not-chosen:0")
    same("status", node.shown()["standing"], {"fit": True, "pull": False, "standby": True, "weight": 254})
    node.says(b"standby off\n")
    node.tells(weight="254")
    node.waits_to_hold()
    node.says(b"weight 0\n")
    node.tells(standby="on")
    wait_for("it gives up", lambda: not node.holds())
    same("told", len(node.told()), 3)


def keys_that_say_nothing():
    node = Linked("nothing", "standby: no\nlocation_score: 0\n").node(1)
    node.waits_to_hold()
    same("told", node.told(), [])


def bad_keys():
    """A key that is out of its range is a fault of the node of that section alone, and of no other command."""
    cluster = Linked("bad", "")
    section = "node {\nnodeid: 1\nring0_addr: 127.0.0.1\n%s}\n"
    text = "nodelist {\n" + section + "node {\nnodeid: 2\nring0_addr: 127.0.0.2\nstandby: x\n}\n}\n"
    places = ["--image", str(cluster.image), "--watchdog", "dog", "--resource", "res", "--port", str(cluster.port), "--turns", "1"]
    for key, wanted in (
        ("standby: x", "standby"), ("standby: Yes", "standby"), ("standby:", "standby"), ("standby: 1", "standby"), ("standby: yes\nstandby: on", "standby"),
        ("location_score: 255", "location_score"), ("location_score: -1", "location_score"), ("location_score:", "location_score"),
        ("location_score: INFINITY", "location_score"), ("location_score: 000000000000000000001", "location_score"),
        ("location_score: x\nstandby: x", "standby"),
    ):
        (cluster.folder / "other").write_text(text % (key + "\n"))
        before = [QUORUMD, "--open", "--links", str(cluster.folder / "other")]
        done = subprocess.run([*before, "node", "--id", "1", *places], stdin=subprocess.DEVNULL, capture_output=True, text=True, check=False)
        said = "quorumd: %s: BadConf BadNumber key %s\n" % (cluster.folder / "other", wanted)
        same("node with %r" % key, (done.returncode, done.stdout, done.stderr), (2, "", said))
        same("help", subprocess.run([*before, "help"], capture_output=True, check=False).returncode, 0)
    (cluster.folder / "other").write_text(text % "standby: no\n")
    done = subprocess.run([*before, "node", "--id", "1", *places], stdin=subprocess.DEVNULL, capture_output=True, text=True, check=False)
    same("the other section is not read", "BadNumber" in done.stderr, False)


def moves():
    """A node that asks for the resource gets it, without a reset; a restart of it asks for nothing, though the file still does."""
    one, two, three_ = nodes = three("moves")
    one.waits_to_hold()
    for node in nodes:
        node.waits_for_view([1, 2, 3], 1)
    two.says(b"pull on\n")
    two.waits_to_hold()
    same("one gave up", (one.holds(), len(one.events("hold-lost"))), (False, 1))
    one.waits_for_view([1, 2, 3], 2)
    same("told", two.told(), [dict(NOTHING, pull="on")])
    same("no reset", [node.events("fence-asked") for node in nodes], [[], [], []])
    two.cluster.message(2, "exit")
    same("left clean", two.end(), (0, "left clean\n"))
    wait_for("another one holds", lambda: one.holds() or three_.holds())
    again = Standing(two.cluster, 2)
    wait_for("it is back", lambda: (again.shown()["view"] or {}).get("members") == [1, 2, 3])
    time.sleep(6)
    same("it asks for nothing", (again.told(), again.holds()), ([], False))
    again.says(b"")
    time.sleep(1.5)
    again.says(b"pull on\n")
    again.waits_to_hold()
    same("no reset", [node.events("fence-asked") for node in (one, three_, again)], [[], [], []])


def standby_of_the_holder():
    """A holder that is put on standby gives up, and the one of the greatest weight holds; it does not come back by itself."""
    one, two, three_ = nodes = three("standby", (b"", b"weight 1\n", b"weight 9\n"))
    wait_for("one holds", lambda: any(node.holds() for node in nodes))
    for node in nodes:
        wait_for("all are there", lambda: (node.shown()["view"] or {}).get("members") == [1, 2, 3])
    one.says(b"pull on\n")
    one.waits_to_hold()
    one.says(b"standby on\n")
    three_.waits_to_hold()
    same("it gave up", one.holds(), False)
    one.says(b"standby off\n")
    one.tells()
    time.sleep(4)
    same("no failback", [node.holds() for node in nodes], [False, False, True])
    same("no reset", [node.events("fence-asked") for node in nodes], [[], [], []])


def unfit_on_one_host():
    """A holder that is unfit gives up to one that is fit, and goes on where nobody else is."""
    one, two, three_ = nodes = three("fit", (b"", b"fit no\n", b"fit no\n"))
    one.waits_to_hold()
    for node in nodes:
        node.waits_for_view([1, 2, 3], 1)
    one.says(b"fit no\n")
    one.tells(fit="no")
    time.sleep(5)
    same("nobody else is fit", [node.holds() for node in nodes], [True, False, False])
    three_.says(b"fit yes\n")
    three_.waits_to_hold()
    same("it gave up", (one.holds(), two.events("hold-won")), (False, []))


def all_on_standby():
    """Nobody holds, each says why, and the first that may hold does."""
    nodes = three("nobody", (b"standby on\n",) * 3)
    for node in nodes:
        node.waits_for_view([1, 2, 3], 0)
        wait_for("node %d says why" % node.ident, lambda: node.shown()["why"] == "not-chosen:0")
    time.sleep(3)
    same("nobody held", [node.events("hold-won") for node in nodes], [[], [], []])
    nodes[2].says(b"")
    nodes[2].waits_to_hold()
    same("nobody else", [node.events("hold-won") for node in nodes[:2]], [[], []])


def no_datagram():
    """What a host says of its node comes by no datagram, though from the port of another node."""
    cluster = Cluster("datagram", ids=(1, 2))
    node = Standing(cluster, 1)
    with socket.socket(socket.AF_INET, socket.SOCK_DGRAM) as other:
        other.bind(("127.0.0.1", cluster.port + 1))
        for _ in range(50):
            other.sendto(b"QN\x0d\x03\x09", ("127.0.0.1", cluster.port))
            time.sleep(0.1)
    same("it is told nothing", (node.runs(), node.told(), node.shown().get("standing")), (True, [], None))


def recorded():
    """The words stand in a record as they were handed over, at the first look and as they changed, and the record is a run."""
    cluster = Cluster("recorded", ids=(1,))
    (cluster.folder / "standing").write_text("standby on\nweight 254\n")
    words = ["--id", "1", "--turns", "200"]
    places = ["--image", str(cluster.image), "--watchdog", "dog", "--resource", "res", "--port", str(cluster.port)]
    with open(cluster.folder / "conf") as settings:
        done = subprocess.run([QUORUMD, "--standing-file", str(cluster.folder / "standing"), "node-logged", *words, *places], stdin=settings, capture_output=True, text=True, check=False)
    log = done.stdout.splitlines()[:-1]
    same("the first that was received", [line for line in log if line.startswith("receive ")][0], "receive 514e0d01fe")
    same("once", log.count("receive 514e0d01fe"), 1)
    same("told", [words_of(event) for event in map(event_of, done.stderr.splitlines()) if event and event["event"] == "standing"], [dict(NOTHING, standby="on", weight="254")])
    same("never started", [line for line in log if line.startswith("start")], [])
    turns = sum(line.startswith("now ") for line in log)
    head = (cluster.folder / "conf").read_text() + "----\n"
    audited = subprocess.run([QUORUMD, "audit", *words], input=head + "".join(line + "\n" for line in log), stdout=subprocess.PIPE, text=True, check=False)
    same("audit", (audited.returncode, audited.stdout), (0, "run whole turns %d\n" % turns))


try_all(each_file, refused_from_the_start, keys_alone, keys_that_say_nothing, bad_keys, moves, standby_of_the_holder, unfit_on_one_host, all_on_standby, no_datagram, recorded)
