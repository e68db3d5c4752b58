"""Sectors with what they spell, from tests/rows/sectors.tsv, each in an image of one node: what `dump` says of a header, and `list` of a slot and
of a mailbox, in both versions of an image."""
import os
import re
import subprocess
import sys

PROGRAM, TOP = os.environ["QUORUMD"], os.environ["TOP"]
# of each kind: the version of its image, its sector, and the line of `list`, if `dump` is not to read it
KINDS = {
    "header-1": (1, 0, None),
    "header-2": (2, 0, None),
    "slot": (2, 1, r"node (\d+) incarnation (\d+) (clean|dirty) mail empty\n"),
    "mail-1": (1, 2, r"node 1 incarnation 0 clean mail (\w+)\n"),
    "mail-2": (2, 512, r"node 1 incarnation 0 clean mail (\w+(?: by \d+:\d+)?)\n"),
}
VALUES = {"slot": "id {} incarnation {} {}", "mail-1": "{}", "mail-2": "{}"}
HEADER = re.compile(r"version (\d)\nnodes (\d+)\nwatchdog (\d+)\nmsgwait (\d+)\nloop (\d+)\nread_limit (\d+)\nfeed_delay (\d+)\nsafe (?:yes|no)\n")


def read(path):
    with open(path, "rb") as file:
        return file.read()


def images():
    """An image of one node of each version, whole; no command makes one of version 1."""
    with open(TOP + "/examples/one-node.conf") as settings:
        subprocess.run([PROGRAM, "create", "--image", "version-2"], stdin=settings, stdout=subprocess.DEVNULL, check=True, timeout=60)
    subprocess.run(["bash", "-eu", "-c", '. "$TOP/tests/version-1.sh" && version_1 version-1 1'], check=True, timeout=60)
    return {version: read("version-%d" % version) for version in (1, 2)}


IMAGES = images()


def sector_of(first, stray):
    sector = bytearray(bytes.fromhex(first.strip("-")).ljust(512, b"\0"))
    if stray != "-":
        place, byte = stray.split("=")
        sector[int(place)] = int(byte, 16)
    return bytes(sector)


def said_of(kind, sector):
    """The status and the answer of the command that reads such a sector."""
    version, place, line = KINDS[kind]
    image = IMAGES[version]
    with open("disk", "wb") as disk:
        disk.write(image[:512 * place] + sector + image[512 * (place + 1):])
    done = subprocess.run([PROGRAM, "list" if line else "dump", "--image", "disk"], stdout=subprocess.PIPE, text=True, timeout=60)
    return done.returncode, done.stdout


def value_of(kind, sector):
    version, place, line = KINDS[kind]
    status, said = said_of(kind, sector)
    if (status, said) == (9, "fault BadImage sector %d\n" % place):
        return "none"
    found = re.fullmatch(line or HEADER, said)
    if status != 0 or found is None:
        return "status %d and %r" % (status, said)
    if line:
        return VALUES[kind].format(*found.groups())
    # a header of the other version is none of this one
    return "nodes {1} timing {2} {3} {4} {5} {6}".format(*found.groups()) if int(found[1]) == version else "none"


rows = [line.split("\t") for line in read(TOP + "/tests/rows/sectors.tsv").decode().splitlines() if line[0] != "#"]
for kind, first, stray, spells in rows:
    value = value_of(kind, sector_of(first, stray))
    if value != spells:
        sys.exit("%s %s %s:\nwanted %s\ngot    %s" % (kind, first, stray, spells, value))
if len(rows) != 238:
    sys.exit("%d rows" % len(rows))
