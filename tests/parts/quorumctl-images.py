"""For tests/scripts/quorumctl-images.sh, which says what is tested."""
import json

EMPTY = {"by": None, "message": "empty"}
OFF = {"by": None, "message": "off"}
FIRST, SECOND = ({"clean": True, "id": ident, "incarnation": 0} for ident in (1, 2))
HEADER = {"version": 2, "watchdog": 5000, "msgwait": 10000, "loop": 1000, "read_limit": 2000, "feed_delay": 1000, "safe": True}
nodes = [{"mail": EMPTY, "slot": FIRST}, {"mail": OFF, "slot": SECOND}]
assert json.load(open("listed")) == nodes
assert json.load(open("checked")) == {"findings": [], "header": HEADER, "nodes": nodes}
damaged = [{"mail": EMPTY, "slot": None}, nodes[1]]
assert json.load(open("damaged")) == {"findings": ["sector 1 is no slot"], "header": HEADER, "nodes": damaged}
assert all(open(name).read().count("\n") == 1 for name in ("listed", "checked", "damaged"))
