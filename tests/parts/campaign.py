"""For tests/scripts/campaign.sh, which says what is tested."""
import sys

from judge import Failure, Judge
from stories import Play, read_story

head, ids, lines = read_story(open(sys.argv[1]).read())
watch = Judge()
play = Play(head, watch)
watch.knows(play.world, 2, 0)
try:
    for line in lines:
        if line.command == "message" and line.values[1] == "test":  # stands for a node that nobody starts at
            play.world.hosts[line.values[0]].member.look = lambda tick, words, holds: None
        elif line.command == "message" and line.values[1] == "clear":  # stands for a reset of a node that is heard
            play.world.event("view 1 9 1,2")
        else:
            play.commands.do(line)
    print("well")
except Failure as failure:
    print(failure)
play.replay.end()
