"""`quorumctl status` over the rows of tests/rows/voices.tsv, which were worked out elsewhere: what the status file of one node says, what the others told it, and what
that comes to. The ticks of a row are moved to the clock of this host. What is near the age at which it counts no more is moved half a second away from there,
and what is of a later moment by a minute, so that a slow host changes no verdict."""
import json
import pathlib

from clusterfiles import TOP, node, same, status, write

ROWS = TOP / "tests" / "rows" / "voices.tsv"
FILE = pathlib.Path("node-1.json")
NAMES = {1: "db1", 2: "db2"}
LIMIT = 4000  # the age up to which something counts: three loops and a second
ALL = (1, 2, 3)


def moved(moment, tick):
    """A tick of a row, relative to the moment of the row."""
    age = moment - tick
    if age < 0:
        return 60000
    if age > LIMIT:
        return -age - 500
    return -age + 500 if age > LIMIT - 500 else -age


def told_by(moment, told):
    return told and {**told, "incarnation": 1, "tick": moved(moment, told["tick"])}


def peer_of(moment, ident, said):
    heard = said["heard"]
    peer = {"hello_tick": None if heard is None else moved(moment, heard), "id": ident, "refused": said["refused"], "told": told_by(moment, said["told"])}
    if ident in NAMES:
        peer["name"] = NAMES[ident]
    return peer


def file_of(moment, loop, said):
    """The file of the node of a row, with its ticks relative to the moment at which it is written."""
    peers = [peer_of(moment, int(ident), peer) for ident, peer in sorted(said["peers"].items())]
    made = node(said["id"], ids=ALL, end=said["end"], held_ms=said["held_ms"], holds=said["holds"], loop=loop, name=NAMES[said["id"]], peers=peers,
                phase=said["phase"], quorate=said["quorate"], tick=moved(moment, said["tick"]), view={"id": 1, "members": said["members"]})
    if said["group"] != 0:
        made["group"] = said["group"]
    return made


def said_of(moment, loop, said):
    """The status, and the first line of what is said."""
    FILE.unlink(missing_ok=True)
    if said is not None:
        write(FILE, file_of(moment, loop, said))
    ended, text, _ = status(FILE)
    return ended, text.splitlines()[0]


def main():
    rows = [line.split("\t") for line in ROWS.read_text().splitlines() if not line.startswith("#")]
    for number, (moment, loop, said, wanted, text) in enumerate(rows, 1):
        same(said_of(int(moment), int(loop), json.loads(said)), (int(wanted), "quorumd " + text), "row %d, %s" % (number, said))
    same(len(rows), 100, "rows")


main()
