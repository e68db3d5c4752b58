"""Scenes of a small cluster in virtual time, whose nodes are those of the second program (tests/noderuns.py): the run of one of them is a case. A
scene is these lines:

    scene NAME of ID: TEXT      what it shows; the run of node ID is recorded
    settings KEY=VALUE ..       of the section quorum, and `votes=3,1,1` of the nodes; three nodes of a vote each where nothing else is said
    nodes N
    turn N                      milliseconds between two turns of a node at rest, 250 where nothing is said
    at T start ID ..
    at T start-before ID ..     nodes of the release before
    at T say ID WORD ..         the word of its host: standby, unfit, pull, weight=N; none of them: nothing
    at T leave ID               its host asks it to leave
    at T kill ID                its machine is off
    at T cut ID ID              neither hears the other any more; `cut-in`: the first one does not hear the second one
    at T heal
    at T packet ID HEX          it receives these bytes
    end T                       in milliseconds of virtual time, where each clock is right
"""
import struct
from collections import namedtuple

import nodebytes
from nodebytes import Slot, Times
from nodeoutsides import Case, Outside
from noderuns import Run, RunBefore, Words

TURN = 250
DELAY = 3  # milliseconds from the sending of a packet to its arrival
TIMES = Times(5000, 10000, 1000, 2000, 1000)
FLAGS = {"standby": 1, "unfit": 2, "pull": 4}
MOST_TURNS = 1000000000

Scene = namedtuple("Scene", "name recorded about settings turn deeds end")
Deed = namedtuple("Deed", "time word values")


# ---- the text of a scene

def scenes_of(text):
    """The scenes of a text, which an empty line parts."""
    for part in text.split("\n\n"):
        lines = [line for line in part.splitlines() if line and not line.startswith("#")]
        if lines:
            yield scene_of(lines)


def scene_of(lines):
    head, _, about = lines[0].partition(": ")
    _, name, _, recorded = head.split(" ")
    numbers, keys, deeds = {"nodes": 3, "turn": TURN}, "", []
    for line in lines[1:]:
        word, *values = line.split(" ")
        if word == "at":
            deeds.append(Deed(int(values[0]), values[1], values[2:]))
        elif word == "settings":
            keys = line.partition(" ")[2]
        else:
            numbers[word] = int(values[0])
    return Scene(name, int(recorded), about, settings_text(numbers["nodes"], keys), numbers["turn"], deeds, numbers["end"])


def settings_text(count, keys):
    words = dict(word.split("=") for word in keys.split())
    votes = words.pop("votes", ",".join("1" * count)).split(",")
    nodes = "".join("node {\nnodeid: %d\n%s}\n" % (ident, "quorum_votes: %s\n" % vote if vote != "1" else "") for ident, vote in enumerate(votes, 1))
    section = "quorum {\n%s}\n" % "".join("%s: %s\n" % pair for pair in words.items()) if words else ""
    return "nodelist {\n%s}\n%s" % (nodes, section)


# ---- the image, and what a node of a scene calls

def image_of(settings, times=TIMES):
    """The sectors of an image that was made for these settings."""
    sectors = {0: nodebytes.padded(b"QNSBD001" + struct.pack(">HHxxxx5Q", 2, len(settings.ids), *times))}
    for rank, ident in enumerate(settings.ids):
        sectors[nodebytes.slot_sector(rank)] = nodebytes.slot_bytes(ident, Slot(0, True))
        sectors[nodebytes.mail_sector(rank)] = nodebytes.mail_bytes("empty")
    return sectors


class Machine(Outside):
    """A machine of a scene with its node: it shares the sectors with the others, and its packets come with their time."""

    def __init__(self, stage, ident, run):
        super().__init__({}, [], [])
        self.stage, self.ident, self.sectors = stage, ident, stage.sectors
        self.run = run(stage.settings, Words(ident, MOST_TURNS, None, False), self)
        self.due, self.end = stage.time, None

    def now(self):
        self.ticks = [self.stage.time]
        return super().now()

    def receive(self):
        if not self.has_packet():
            waiting, self.packets = self.packets, []
            packet = super().receive()
            self.packets = waiting
            return packet
        self.packets[0] = self.packets[0][1]
        return super().receive()

    def has_packet(self):
        return bool(self.packets) and self.packets[0][0] <= self.stage.time

    def send(self, rank, data):
        self.stage.send(self.ident, self.stage.settings.ids[rank], data)
        return super().send(rank, data)

    def turn(self):
        """A turn, where one is due: at rest after some time, else at the next moment."""
        is_busy = self.run.stop_waits is not None or self.run.disk_waits is not None or self.has_packet()
        if self.end is None and (self.stage.time >= self.due or is_busy):
            self.end = self.run.turn(self.turns + 1)
            self.due = self.stage.time + self.stage.scene.turn


class Stage:
    """A scene as it goes on."""

    def __init__(self, scene):
        self.scene = scene
        self.settings = nodebytes.settings_of(scene.settings)
        self.sectors, self.machines = image_of(self.settings), {}
        self.time, self.cuts = 0, set()

    def played(self):
        """The case of the node that is recorded."""
        deeds = sorted(self.scene.deeds, key=lambda deed: deed.time)
        for self.time in range(self.scene.end):
            while deeds and deeds[0].time <= self.time:
                self.do(deeds.pop(0))
            for ident in sorted(self.machines):
                self.machines[ident].turn()
        machine = self.machines[self.scene.recorded]
        line, status = machine.end or ("turns %d %s" % (machine.turns, machine.run.core.stands()), 0)
        words = machine.run.words._replace(turns=machine.turns)
        return Case(self.scene.name, self.scene.about, self.scene.settings, words, {}, [], machine.log, line, status)

    def do(self, deed):
        ids = [int(word) for word in deed.values if word.isdigit()]
        if deed.word in ("start", "start-before"):
            run = Run if deed.word == "start" else RunBefore
            self.machines.update((ident, Machine(self, ident, run)) for ident in ids)
        elif deed.word == "kill":
            del self.machines[ids[0]]
        elif deed.word == "say":
            self.hand(ids[0], b"QN\r" + word_bytes(deed.values[1:]))
        elif deed.word == "leave":
            self.hand(ids[0], b"QN\x0c\1")
        elif deed.word == "packet":
            self.hand(ids[0], bytes.fromhex(deed.values[1]))
        elif deed.word in ("cut", "cut-in"):
            self.cuts |= {(ids[1], ids[0])} | ({(ids[0], ids[1])} if deed.word == "cut" else set())
        else:
            self.cuts.clear()

    def hand(self, ident, data):
        self.machines[ident].packets.insert(0, (self.time, data))

    def send(self, sender, receiver, data):
        if receiver in self.machines and (sender, receiver) not in self.cuts:
            self.machines[receiver].packets.append((self.time + DELAY, data))


def word_bytes(words):
    """The flags and the weight of what a host says of its node."""
    weight = next((int(word.partition("=")[2]) for word in words if word.startswith("weight=")), 0)
    return bytes([sum(FLAGS.get(word, 0) for word in words), weight])


def cases_of(text):
    """The case of each scene."""
    for scene in scenes_of(text):
        yield Stage(scene).played()
