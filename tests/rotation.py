"""What seals packets is changed by restarts, while somebody holds: one node after the other leaves clean and comes back with the keys of the next step,
or with another settings text."""
import threading

from live import same, wait_for

TIMING = "2000,5100,1000,1000,500"
STEPS = (("old",), ("old", "new"), ("new", "old"), ("new",))  # the keys that the nodes begin with, and those of each step
IDS = (1, 2, 3)


def announced(run):
    """The members of each view that a run of `node-logged` announced, one after the other. A farewell, which is without its sender, is none."""
    views = []
    for line in run.answer.read_text().splitlines():
        words = line.split()
        if words[0] == "send" and words[2][:6] in ("514e04", "514e0b"):
            packet = bytes.fromhex(words[2])
            mask = int.from_bytes(packet[12:16], "big")
            members = [ident for ident in IDS if mask >> (ident - 1) & 1]
            if mask >> packet[3] & 1 and members != (views or [None])[-1]:
                views.append(members)
    return views


def without(ident):
    return [other for other in IDS if other != ident]


def rotate(cluster, start, steps=STEPS):
    """Nodes 1 to 3, by `start(ident, *step)`: never do two hold, nobody is reset, and each restart costs one view without the node that is away,
    and one with it again. The least node that is there leads, and announces them."""
    runs = {ident: [start(ident, *steps[0])] for ident in IDS}
    runs[1][0].waits_for("start: ok")
    end, twice = threading.Event(), []

    def watches():
        while not end.wait(0.02):
            held = [ident for ident in IDS if cluster.resource(ident) == "held"]
            if len(held) > 1:
                twice.append(held)

    def sees(leader, members):
        wait_for("node %d leads %s" % (leader, members), lambda: announced(runs[leader][-1])[-1:] == [members])

    watcher = threading.Thread(target=watches)
    watcher.start()
    sees(1, [1, 2, 3])
    rounds = len(steps) - 1
    for step in steps[1:]:
        for ident in reversed(IDS):
            cluster.message(ident, "exit")
            status, said = runs[ident][-1].end()
            same("answer", (status, said.splitlines()[-1]), (0, "left clean"))
            sees(without(ident)[0], without(ident))
            runs[ident].append(start(ident, *step))
            sees(1, [1, 2, 3])
            wait_for("somebody holds", lambda: "held" in [cluster.resource(each) for each in IDS])
    end.set()
    watcher.join()
    same("two held", twice, [])
    same("nobody was reset", [cluster.listed(ident) for ident in IDS], ["incarnation %d dirty mail empty" % (rounds + 1)] * 3)
    led = [[1, 2, 3], [1, 2], [1, 2, 3], [1, 3], [1, 2, 3]]
    # who is up first leads the first views, until the others are seen
    same("views of node 1", [announced(run)[-len(led):] for run in runs[1][:-1]] + [announced(runs[1][-1])], [led] * rounds + [[[1, 2, 3]]])
    same("views of node 2", [announced(run)[:1] for run in runs[2][1:]], [[[2, 3]]] * rounds)
    # on a slow machine node 2 may announce the view of all before node 1, which just came back, does
    same("later views of node 2", [view for run in runs[2][1:] for view in announced(run)[1:] if view != [1, 2, 3]], [])
    same("views of node 3", [announced(run) for run in runs[3][1:]], [[]] * rounds)
