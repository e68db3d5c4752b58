"""Where the whole group runs a stop begins at its second asking, a loop after the first, with loops of 1, 9, 10 and 60 seconds; an asking is forgotten after three loops, and after ten
seconds at the least."""
import os
import re
import subprocess

ASKED = 5000  # the tick of the first asking


def answers(loop, *later):
    """What `quorumctl group` gives, with such a loop, for a stop at that tick and these lines after it: the words of each answer, without the phases."""
    lines = ["resource 3600000 60000 0 3000 3 3600000", "begin held", "loop %d" % loop, "tick 1000", "ended 0 monitor ok", "tick %d" % ASKED, "stop", *later]
    text = "".join(line + "\n" for line in lines)
    done = subprocess.run([os.environ["QUORUMCTL"], "group"], input=text, capture_output=True, text=True, check=True)
    events = re.split(r"(?m)^told .*\n", done.stdout)
    return [" ".join(line for line in event.splitlines() if line.startswith(("answer ", "run "))) for event in events][-1 - len(later):-1]


def expect(got, wanted, what):
    assert got == wanted, "%s: %s, and not %s" % (what, got, wanted)


for loop in 1000, 9000, 10000, 60000:
    forgotten = max(3 * loop, 10000)
    for after in loop, forgotten - 1:
        expect(answers(loop, "tick %d" % (ASKED + after), "stop"), ["", "answer wait run 0 stop"], "a loop of %d ms, asked again after %d" % (loop, after))
    expect(answers(loop, "tick %d" % (ASKED + forgotten), "stop"), ["", "answer wait"], "a loop of %d ms, asked again after %d" % (loop, forgotten))
