"""Stories of three, five and nine nodes at drawn moments: the holder is cut off, and the majority has a holder within the bound; packets are lost
for half a loop to 2.9 loops, of all nodes or of one, one way or both, and nobody is reset; two nodes of which one has a fence delay. And links
are cut for good, of three nodes in each of the 64 patterns and of four in drawn ones, while the nodes run or before they boot: a majority of
which every two hear each other has a holder within the bound, and none of it is reset. RUNS says how many of each there are."""
import concurrent.futures
import itertools
import os
import random
import sys

from judge import Failure, Judge
from randomstory import Setting
from stories import Play
from storytext import USUAL_TIMING, Head, line_of
from traces import head_of, ids_of

LOOP, MSGWAIT = USUAL_TIMING.loop, USUAL_TIMING.msgwait


class Scene(Judge):
    """A story of so many nodes that came up and are disturbed at a drawn moment."""

    def __init__(self, setting, seed):
        super().__init__()
        self.rng = random.Random(seed)
        self.setting, self.resets, self.lines = setting, [], []

    def event(self, words, report, deeds, cause):
        self.resets += [deed.node for deed in deeds if deed.kind == "asked"]
        super().event(words, report, deeds, cause)

    def play(self, *lines):
        """Plays these lines after the boots; gives the nodes whose resets were asked for, and who holds at the end."""
        head = Head(self.setting.text, USUAL_TIMING, 1, None, [])
        ids = ids_of(head_of(head.settings, head.timing))
        play = Play(head, self)
        self.knows(play.world, self.setting.enough, self.setting.delay)
        try:
            for line in ("up %s" % " ".join(map(str, ids)), "run %d" % (4 * LOOP + self.rng.randrange(LOOP)), *lines):
                self.lines.append(line)
                play.commands.do(line_of(len(self.lines), line.split(), ids))
        finally:
            play.replay.end()
        return sorted(set(self.resets)), play.world.holders


def holder_cut(count, seed):
    """It alone is reset, and the next one holds."""
    scene = Scene(Setting(count), seed)
    return scene, scene.play("cut 1", "run %d" % (MSGWAIT + 8 * LOOP)), ([1], (2,))


def outage(count, seed):
    """Nobody is reset, and node 1 holds."""
    scene = Scene(Setting(count), seed)
    draw = scene.rng
    cut = draw.choice(["%s %d" % (word, draw.randrange(1, count + 1)) for word in ("cut", "cut-in", "cut-out")]
                      + ["split %s" % " | ".join(map(str, range(1, count + 1)))])
    lines = (cut, "run %d" % draw.randrange(LOOP // 2, 29 * LOOP // 10 + 1), "heal", "run %d" % (6 * LOOP))
    return scene, scene.play(*lines), ([], (1,))


def two_with_delay(_, seed):
    """The node whose resets wait survives, whichever holds."""
    scene = Scene(Setting(2, "two_node: 1", delayed=2, delay=5 * LOOP, enough=2), seed)
    return scene, scene.play("split 1 | 2", "run %d" % (MSGWAIT + 8 * LOOP)), ([1], (2,))


def directions(count):
    return list(itertools.permutations(range(1, count + 1), 2))


def majority_under(count, cuts):
    """The greatest majority of which every two hear each other, where packets from the one to the other of each pair are lost."""
    groups = (group for many in range(count, count // 2, -1) for group in itertools.combinations(range(1, count + 1), many))
    return next((group for group in groups if not cuts & set(itertools.permutations(group, 2))), ())


class Unlinked(Scene):
    """A story whose links are cut at its beginning, or while the nodes run. Whoever is off boots again."""

    def play_cuts(self, cuts, is_booted):
        count = self.setting.count
        cut = ["cut-link-in %d %d" % (hearer, sender) for sender, hearer in sorted(cuts)]
        up = "up %s" % " ".join(map(str, range(1, count + 1)))
        before = [*cut, up] if is_booted else [up, "run %d" % (4 * LOOP + self.rng.randrange(LOOP)), *cut]
        head = Head(self.setting.text, USUAL_TIMING, 1, None, [])
        play = Play(head, self)
        self.knows(play.world, self.setting.enough, self.setting.delay)
        try:
            for line in itertools.chain(before, self.times(play.world)):
                self.lines.append(line)
                play.commands.do(line_of(len(self.lines), line.split(), play.world.ids))
        finally:
            play.replay.end()
        return play.world.holders

    def times(self, world):
        """Time goes by, and each node that is off boots, at times."""
        for _ in range(14):
            yield "run %d" % (2 * LOOP)
            off = [host.ident for host in world.hosts.values() if not host.node.runs and not host.is_awaited]
            if off and self.rng.randrange(2):
                yield "up %s" % " ".join(map(str, off))


def unlinked(count, cuts, is_booted, seed):
    """Whether somebody holds at the end, where a majority is well, and who of it is reset."""
    scene, well = Unlinked(Setting(count), seed), majority_under(count, cuts)
    holders = scene.play_cuts(cuts, is_booted)
    reset = sorted(set(scene.resets) & set(well))
    return scene, (bool(holders) or not well, reset), (True, [])


def each_of_three(number, seed):
    """All 64 patterns, while they run and booted."""
    cuts = {cut for place, cut in enumerate(directions(3)) if number >> place & 1}
    return unlinked(3, cuts, number >> 6 == 1, seed)


def drawn_of_four(number, seed):
    draw = random.Random("%d %d" % (number, seed))
    cuts = {cut for cut in directions(4) if draw.random() < .15}
    return unlinked(4, cuts, number % 2 == 1, seed)


def tried(job):
    scene, count, seed = job
    try:
        played, got, wanted = scene(count, seed)
        return None if got == wanted else "%s of %d, seed %d: %r, not %r\n  %s" % (scene.__name__, count, seed, got, wanted, "; ".join(played.lines))
    except Failure as failure:
        return "%s of %d, seed %d: %s" % (scene.__name__, count, seed, failure)


RUNS = int(os.environ.get("RUNS", 2))
jobs = [(scene, count, seed) for seed in range(RUNS) for scene in (holder_cut, outage) for count in (3, 5, 9)]
jobs += [(two_with_delay, 2, seed) for seed in range(RUNS)]
jobs += [(each_of_three, number, seed) for seed in range((RUNS + 1) // 2) for number in range(128)]
jobs += [(drawn_of_four, number, seed) for seed in range(RUNS) for number in range(8)]
with concurrent.futures.ProcessPoolExecutor() as pool:
    wrong = [said for said in pool.map(tried, jobs) if said]
print("%d stories, %d at fault" % (len(jobs), len(wrong)))
if wrong:
    print("\n".join(wrong[:20]))
    sys.exit(1)
