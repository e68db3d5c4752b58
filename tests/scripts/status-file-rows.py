"""`quorumctl status --json` over the rows of tests/rows/status-files.rows, whose texts were written by Python's json: of `good TEXT` the object of the node is
that text, byte for byte, beside its age and whether it is stale; `same TEXT` is read as the row before; `bad WHY TEXT` is refused, and the line says why. The
rows of tests/rows/status-files-later.rows, of keys that came later, are of the same form, and were written by hand from docs/node-status.schema.json."""
import pathlib

from clusterfiles import TOP, object_of, same, status

FILE = pathlib.Path("node.json")
WHYS = {"json": ("it is no JSON", "a key stands twice")}


def read(text):
    """What is shown of a file of that text."""
    FILE.write_text(text + "\n")
    return object_of(FILE)


def refused(why, text):
    """What is to be said, and what is."""
    FILE.write_text(text + "\n")
    said = status(FILE)[1].splitlines()[-1]
    word, _, rest = why.partition(" ")
    wanted = WHYS.get(word) or {"format": ("format %s is not known" % rest,), "key": ("the key %s is missing or of another type" % rest,)}[word]
    same(said in ["    ? %s: %s" % (FILE, each) for each in wanted], True, "%s: %s" % (why, said))


rows = [row for name in ("status-files.rows", "status-files-later.rows") for row in (TOP / "tests" / "rows" / name).read_text().splitlines()]
before = None
for row in rows:
    kind, text = row.split(" ", 1)
    if kind == "good":
        same(read(text), text, "a good row")
        before = text
    elif kind == "same":
        same(read(text), before, "a row that is read as the one before")
    else:
        why, _, text = text.partition(" {")
        refused(why, "{" + text)
print("%d rows" % len(rows))
