"""Three nodes of one host that an operator moves by name, puts on standby and back, by quorumctl, in the folders of the package, which lie in a name space of mounts of their own. What
node-check does before a start of the unit is done by its helper. A witness never starts. A node on which a start failed is unfit, and may hold again once it is fit."""
from hosted import RUN, WAITING, Hosted, Named, holders, quorumctl
from live import in_package_folders, same, try_all, wait_for


def moves(nodes):
    """Five moves by name; nobody is reset."""
    for ident in (2, 3, 1, 3, 2):
        same("a move to db%d" % ident, quorumctl("move", "--node", "db%d" % ident), (0, WAITING + "db%d holds\n" % ident, ""))
        wait_for("db%d alone holds" % ident, lambda: holders(nodes) == [ident])
        same("once more", quorumctl("move", "--node", str(ident)), (0, "db%d holds already\n" % ident, ""))
    same("no reset", [node.events("fence-asked") for node in nodes], [[], [], []])


def standby_through_a_restart(nodes):
    """db2 holds, and is a standby: another one holds. It stays one through its restart, and takes nothing back."""
    status, said, errors = quorumctl("standby", "--node", "db2")
    same("a standby", (status, said.splitlines()[1], errors), (0, "db2 is a standby", ""))
    wait_for("another one holds", lambda: holders(nodes) in ([1], [3]))
    before = holders(nodes)
    nodes[1].cluster.message(2, "exit")
    same("it leaves", nodes[1].end(), (0, "left clean\n"))
    nodes[1] = Hosted(nodes[1].cluster, 2)
    for node in nodes:
        node.waits_for_all()
    same("it is a standby yet", nodes[1].shown()["standing"], {"fit": True, "pull": False, "standby": True, "weight": 0})
    same("it is not moved to", quorumctl("move", "--node", "db2"), (1, "", "quorumctl: move: db2: it is a standby; quorumctl unstandby ends that\n"))
    same("the same holds", holders(nodes), before)
    same("no more", quorumctl("unstandby", "--node", "db2"), (0, "db2 may hold again\n", ""))
    same("a move back", quorumctl("move", "--node", "db2")[0], 0)


def all_on_standby(nodes):
    """The last one says that nobody may hold, and each says why."""
    same("db1", quorumctl("standby", "--node", "db1")[0], 0)
    same("db3", quorumctl("standby", "--node", "db3")[0], 0)
    status, said, errors = quorumctl("standby", "--node", "db2")
    same("db2", (status, said.splitlines()[1], errors), (1, "db2 is a standby, and nobody may hold", ""))
    for node in nodes:
        wait_for("it says why", lambda: (node.why(), node.holds()) == ("not-chosen:0", False))
    same("back", quorumctl("unstandby", "--node", "db3"), (0, "db3 may hold again\n", ""))
    wait_for("db3 holds", lambda: holders(nodes) == [3])
    for name in "db1", "db2":
        same("back", quorumctl("unstandby", "--node", name)[0], 0)


def unfit_on_one_host(nodes):
    """What the supervisor says after a start that failed: the node gives up, is not moved to, and may hold again once it is fit."""
    (RUN / "standing-3").write_text("fit no\n")
    wait_for("another one holds", lambda: holders(nodes) == [1])
    same("unfit", quorumctl("move", "--node", "db3"), (1, "", "quorumctl: move: db3: it is unfit; quorumctl fit ends that\n"))
    same("fit", quorumctl("fit", "--node", "db3"), (0, "db3 is fit\n", ""))
    same("a move", quorumctl("move", "--node", "db3"), (0, WAITING + "db3 holds\n", ""))
    same("no reset", [node.events("fence-asked") for node in nodes], [[], [], []])


def missing(nodes):
    """Once a node is lost a move is refused, since it would be reset once more; one that left is none."""
    nodes[0].kill()
    wait_for("db2 sees db3 alone", lambda: (nodes[1].shown()["view"] or {}).get("members") == [2, 3])
    status, said, errors = quorumctl("move", "--node", "db2")
    same("refused", (status, said, errors.endswith(" db1\n")), (1, "", True))


def three_nodes():
    cluster = Named("moved")
    nodes = [Hosted(cluster, ident) for ident in (1, 2, 3)]
    for node in nodes:
        node.waits_for_all()
    wait_for("one holds", lambda: holders(nodes) == [1])
    for scene in moves, standby_through_a_restart, all_on_standby, unfit_on_one_host, missing:
        scene(nodes)


if in_package_folders():
    try_all(three_nodes)
