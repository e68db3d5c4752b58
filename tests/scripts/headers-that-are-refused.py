"""Images that no node takes, beside a text of three nodes: of version 1, with one byte of the header turned, of another number of nodes, with times
that are not safe, and with a feed delay of 1. Each opening with a word of a machine ends with status 8 and a line, and arms nothing; so does
that of two such images of three."""
import pathlib
import subprocess

import live
from live import Cluster, TripleCluster, same, try_all

NO_HEADER = "no image: its first sector is no header of version 2"
TIMES, TURNED = slice(16, 56), (*range(10), *range(12, 16), *range(56, 511, 45), 511)


class OfThree:
    """A text that says where each of the three nodes is, and what is opened beside it."""

    def place(self, ident):
        return "ring0_addr: 127.0.0.%d\n" % ident

    def refused(self, what, line=None):
        """The line of a node that is not opened, where it is the one that is wanted or none is; nothing was armed."""
        folder = self.folder
        for name in ("watchdog", "resource"):
            (folder / name).write_bytes(b"")
        words = [live.QUORUMD, "--open", "--links", str(folder / "conf"), self.COMMAND, "--id", "1", "--image", ",".join(map(str, self.images)), "--watchdog",
                 str(folder / "watchdog"), "--resource", str(folder / "resource"), "--port", str(self.port), "--turns", "3"]
        with open(folder / "conf") as settings:
            done = subprocess.run(words, stdin=settings, capture_output=True, text=True, check=False)
        same(what, (done.returncode, done.stdout), (8, "fault EnvFault\n"))
        same("armed: " + what, (folder / "watchdog").read_bytes(), b"")
        same("resource: " + what, (folder / "resource").read_bytes(), b"")
        said = [said.removeprefix("quorumd: ") for said in done.stderr.splitlines() if not live.event_of(said)]
        if line is not None:
            same("line: " + what, said, ["%s: %s" % (self.images[0], line)])
        return said


class One(OfThree, Cluster):
    pass


class Three(OfThree, TripleCluster):
    pass


def whole(path):
    return pathlib.Path(path).read_bytes()


def turned():
    """Bytes of the header that are no times, with their lowest bit turned: none is an image, or it is one of another number of nodes."""
    cluster = One("turned")
    image = pathlib.Path(cluster.image)
    good = whole(image)
    for place in (*TURNED, 11):
        bad = bytearray(good)
        bad[place] ^= 1
        image.write_bytes(bad)
        cluster.refused("byte %d" % place, "an image of 2 nodes, and the text has 3" if place == 11 else NO_HEADER)


def version_1():
    cluster = One("version-1")
    image = pathlib.Path(cluster.image)
    image.write_bytes(image.read_bytes()[:8] + b"\0\1" + image.read_bytes()[10:])
    cluster.refused("version 1", NO_HEADER)


def times():
    """Times that are not safe, one of 0, which no header has, and a feed delay of 1, which is safe."""
    cluster = One("times")
    image = pathlib.Path(cluster.image)
    good = whole(image)
    for times_of, line in (((5000, 8163, 1000, 2000, 1000), "its times are not safe"), ((0, 10000, 1000, 2000, 1000), NO_HEADER),
                           ((5000, 10000, 1000, 2000, 1), "feed delay 1: no feed is in time")):
        spelled = b"".join(number.to_bytes(8, "big") for number in times_of)
        image.write_bytes(good[:TIMES.start] + spelled + good[TIMES.stop:])
        cluster.refused(str(times_of), line)


def three_images():
    """One image of three may have no header; two may not."""
    cluster = Three("three")
    for image in cluster.images[1:]:
        pathlib.Path(image).write_bytes(b"\0" + whole(image)[1:])
    same("lines", cluster.refused("two of three"), ["%s: %s" % (image, NO_HEADER) for image in cluster.images[1:]])


try_all(turned, version_1, times, three_images)
