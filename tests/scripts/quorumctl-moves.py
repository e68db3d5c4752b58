"""What quorumctl makes of a standby, an unstandby, a fit and a move of the node of this host, in rows: when it refuses, what it writes, and how it waits. The node is played: its
status file says what its row has, and follows its words. The folders are those of the package, in a name space of mounts of its own."""
import copy
import os
import pathlib
import subprocess
import threading
import time

from clusterfiles import QUORUMCTL, holder, node, quorumctl, same, write
from live import in_package_folders

RUN, KEPT = pathlib.Path("/run/quorumd"), pathlib.Path("/var/lib/quorumd")
WORDS, REMEMBERED = RUN / "standing-2", KEPT / "standby-2"
WAITING = "waiting; Ctrl-C ends the waiting alone\n"
MISSING = "a node is neither in the view nor has left: it would be reset once more, and the service would wait for that; stop it there, or --yes does it:"
NOT_TAKEN = "2 does not take it: another command took it back, or it runs without --standing-file\n"


def view(members=(1, 2, 3), candidate=1):
    return {"candidate": candidate, "id": 1, "members": list(members)}


def says(fit=True, pull=False, standby=False, weight=0):
    return {"fit": fit, "pull": pull, "standby": standby, "weight": weight}


def peer(ident, told=None, **more):
    return {"hello_tick": -200, "id": ident, "told": told, **more}


def told(holds=False, leaving=False):
    return {"group": 4, "held_ms": 5000 if holds else 0, "holds": holds, "incarnation": 1, "leaving": leaving, "quorate": True, "tick": -100}


def two(**changes):
    """Node 2, which is up in a view of all three that names node 1, which holds."""
    return node(2, **{"view": view(), "peers": [peer(1, told(holds=True)), peer(3, told())], **changes})


LEFT = [peer(1, told(holds=True)), peer(3, told(leaving=True))]
ABSENT = [peer(1, told(holds=True)), peer(3, told())]
NAMED = [peer(1, told(holds=True), name="db1"), peer(3, told(), name="db3")]
REFUSED = [  # files of this host, words, the status, the line on standard error behind the name of the program
    ([two(view=view(candidate=None))], "move", 1, "move: 2: a node of its view runs a program that knows no moves"),
    ([two(view={"id": 1, "members": [1, 2, 3]})], "move", 1, "move: 2: a node of its view runs a program that knows no moves"),
    ([two(standing=says(standby=True))], "move", 1, "move: 2: it is a standby; quorumctl unstandby ends that"),
    ([two(standing=says(standby=True, fit=False))], "move --yes", 1, "move: 2: it is a standby; quorumctl unstandby ends that"),
    ([two(standing=says(fit=False))], "move", 1, "move: 2: it is unfit; quorumctl fit ends that"),
    ([two(view=None)], "move", 1, "move: 2: it is in no view"),
    ([two(view=view((1, 3)))], "move", 1, "move: 2: it is in no view"),
    ([two(standing=says(pull=True))], "move", 1, "move: 2: a move to it is under way; quorumctl move --off ends that"),
    ([two(view=view((1, 2)), peers=ABSENT)], "move", 1, "move: 2: %s 3" % MISSING),
    ([two(view=view((1, 2)), peers=NAMED, name="db2")], "move", 1, "move: db2: %s db3" % MISSING),
    ([two(view=view((2,)), peers=[peer(1), peer(3)])], "move", 1, "move: 2: %s 1 3" % MISSING),
    ([two(end="left clean")], "move", 1, "move: 2: it does not run"),
    ([two(tick=-400000)], "move", 1, "move: 2: it does not run"),
    ([two(tick=900000)], "move", 1, "move: 2: it does not run"),
    ([two(view=view((2,)))], "standby", 1, "standby: 2: no other node is in its view, so nobody would hold; --yes does it"),
    ([two(view=None)], "standby", 1, "standby: 2: no other node is in its view, so nobody would hold; --yes does it"),
    ([two(peers=NAMED)], "move --node db1", 2, "move: run it on db1"),
    ([two()], "standby --yes --node 3", 2, "standby: run it on 3"),
    ([two()], "unstandby --node 1", 2, "unstandby: run it on 1"),
    ([two()], "fit --node 1", 2, "fit: run it on 1"),
    ([two(peers=NAMED)], "move --node db4", 16, 'move: no node is called "db4"'),
    ([two()], "move --node 4", 16, 'move: no node is called "4"'),
    ([two()], "move --off --node 4", 16, 'move: no node is called "4"'),
    ([two(), node(3)], "move", 2, "move: not one node of this host: --node NODE says which"),
    ([], "move", 8, "no node was started on this host since its boot: systemctl status 'quorumd@*'"),
    ([], "standby", 8, "no node was started on this host since its boot: systemctl status 'quorumd@*'"),
]


def clear():
    for path in (*RUN.iterdir(), *KEPT.iterdir()):
        path.unlink()


def shows(*nodes):
    """These nodes write their files."""
    for made in nodes:
        write(RUN / "new", made)
        os.replace(RUN / "new", RUN / ("node-%d.json" % made["id"]))


def kept():
    """The files that a command wrote, each with its text."""
    return {path.name: path.read_text() for path in (*RUN.iterdir(), *KEPT.iterdir()) if not path.name.endswith((".json", ".lock"))}


def refused():
    for files, words, status, line in REFUSED:
        clear()
        shows(*files)
        same((*quorumctl(*words.split()), kept()), (status, "", "quorumctl: %s\n" % line, {}), "%s of %r" % (words, files))
    clear()
    shows(holder(2, view=view(candidate=2)))
    same((*quorumctl("move"), kept()), (0, "2 holds already\n", "", {}), "a move to who holds")
    clear()
    (RUN / "node-2.json").write_text("{")
    same((*quorumctl("move"), kept()), (2, "", "quorumctl: move: not one node of this host: --node NODE says which\n", {}), "a file that is none")


class Played:
    """Node 2, which looks at its words four times a second, and does then what `follows` says: it gets the node and what the words are."""

    def __init__(self, made, follows=None):
        clear()
        self.made, self.follows, self.ends = made, follows, threading.Event()
        shows(made)
        self.thread = threading.Thread(target=self.play, daemon=True)
        self.thread.start()

    def play(self):
        while not self.ends.wait(0.25):
            made = copy.deepcopy(self.made)
            words = dict(line.split(" ") for line in (WORDS.read_text() if WORDS.exists() else "").splitlines())
            said = says(words.get("fit", "yes") == "yes", words.get("pull", "off") == "on", words.get("standby", "off") == "on", int(words.get("weight", "0")))
            if said != says():
                made["standing"] = said
            if self.follows:
                self.follows(made, said)
            shows(made)

    def runs(self, *words):
        """The status of quorumctl and its lines, and what it wrote."""
        got = quorumctl(*words)
        self.ends.set()
        self.thread.join()
        return (*got, kept())


def gives_up(made, said):
    """A holder that is a standby gives up, and node 1 holds."""
    made["holds"] = not said["standby"]
    made["peers"] = [peer(1, told(holds=said["standby"])), peer(3, told())]


def is_served(made, said):
    """It holds from the first pull on."""
    made["holds"] = made["holds"] or said["pull"]


def written():
    off = {"standing-2": "pull off\n"}
    on = {"standing-2": "standby on\n", "standby-2": "standby on\n"}
    line = "%s\n"
    same(Played(two()).runs("standby")[::3], (0, on), "a standby of who does not hold")
    same(Played(two(view=view((2,)))).runs("standby", "--yes")[::3], (0, on), "one that is sure")
    same(Played(two()).runs("unstandby"), (0, "2 may hold again\n", "", {"standing-2": "standby off\n", "standby-2": "standby off\n"}), "an unstandby")
    same(Played(two()).runs("fit"), (0, "2 is fit\n", "", {"standing-2": "fit yes\n"}), "a fit")
    same(Played(two()).runs("move", "--off"), (0, "2 is asked for no more\n", "", off), "a move that is called off")
    same(Played(two(), is_served).runs("move"), (0, WAITING + "2 holds\n", "", off), "a move")
    same(Played(two(name="db2", peers=LEFT, view=view((1, 2))), is_served).runs("move", "--node", "db2"), (0, WAITING + "db2 holds\n", "", off), "one beside a node that left")
    same(Played(two(view=view((1, 2)), peers=ABSENT), is_served).runs("move", "--yes")[::3], (0, off), "one that is sure")
    same(Played(two(loop=50)).runs("move"), (1, WAITING + "2 did not start within 60 loops, and is asked for no more\n", "", off), "a move in vain")
    same(Played(two(end="left clean")).runs("standby")[::3], (0, on), "a standby of a node that ended")
    same(Played(two(end="left clean")).runs("fit"), (0, "2 does not run: it goes by that from its next start on\n", "", {"standing-2": "fit yes\n"}), "a fit of one that ended")
    got = Played(two(holds=True), gives_up).runs("standby")
    said = quorumctl("status")[1].splitlines()[0].removeprefix("quorumd ")
    same(got, (0, WAITING + "2 is a standby\n" + line % said, "", on), "a standby of who holds")

    def nobody(made, said):
        made.update(holds=not said["standby"], peers=[peer(1, told()), peer(3, told())], view=view(candidate=0 if said["standby"] else 2))
    got = Played(two(holds=True, loop=200), nobody).runs("standby")
    said = quorumctl("status")[1].splitlines()[0].removeprefix("quorumd ")
    same(got, (1, WAITING + "2 is a standby, and nobody may hold\n" + line % said, "", on), "a standby of the last one")

    def ends(made, said):
        made["end"] = "left clean" if said["pull"] else None
    same(Played(two(), ends).runs("move"), (1, WAITING + "2 ended before it held\n", "", off), "a node that ends")

    def is_deaf(made, said):
        made.pop("standing", None)
    same(Played(two(loop=200), is_deaf).runs("fit"), (0, "2 is fit\n", "", {"standing-2": "fit yes\n"}), "a fit of who is fit")
    same(Played(two(loop=200), is_deaf).runs("move"), (1, WAITING + NOT_TAKEN, "", off), "a node that does not look")


def other_words():
    """The other words stay, and what is none goes; what was under way is cleared."""
    played = Played(two())
    WORDS.write_text("weight 12\npull off\nnonsense\nfit no\n")
    (RUN / "standing-2.new").write_text("half")
    same(played.runs("fit"), (0, "2 is fit\n", "", {"standing-2": "fit yes\nweight 12\npull off\n"}), "other words")


def one_at_a_time():
    """A command waits for the lock that another program has."""
    clear()
    shows(two())
    lock = subprocess.Popen(["flock", str(RUN / "standing.lock"), "sleep", "3"])
    time.sleep(0.5)
    began = time.monotonic()
    command = subprocess.Popen([QUORUMCTL, "fit"], stdout=subprocess.DEVNULL)
    time.sleep(1)
    same(kept(), {}, "nothing is written meanwhile")
    lock.wait()
    while not WORDS.exists():
        if time.monotonic() - began > 60:
            raise SystemExit("it is not written after the lock is free")
        shows(two())
        time.sleep(0.1)
    shows(two())
    command.wait(60)


if in_package_folders():
    refused()
    written()
    other_words()
    one_at_a_time()
