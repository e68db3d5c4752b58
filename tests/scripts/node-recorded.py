"""`node-logged` records a node, and `audit` takes the record as a whole run, each beginning of it as the beginning of one, and
names the first line that is another. A record that cannot be written: status 7, and the node ran on."""
import pathlib
import re
import subprocess

from live import QUORUMD, Cluster, done_of, event_of, same

WORDS = ["--id", "1", "--turns", "60", "--leave", "40"]
cluster = Cluster("one", ids=(1,))
head = (cluster.folder / "conf").read_text() + "----\n"
before = head.count("\n")


def run_logged(output):
    words = ["--image", str(cluster.image), "--watchdog", "dog", "--resource", "res", "--port", str(cluster.port)]
    with open(cluster.folder / "conf") as settings:
        done = subprocess.run([QUORUMD, "node-logged", *WORDS, *words], stdin=settings, stdout=output, stderr=subprocess.PIPE, check=False)
    return done.returncode, done.stderr.decode()


def audit(log, *words):
    done = subprocess.run([QUORUMD, "audit", *(words or WORDS)], input=head + log, stdout=subprocess.PIPE, text=True, check=False)
    return done.returncode, done.stdout


def turns_of(lines):
    return sum(line.startswith("now ") for line in lines)


with open("record", "w") as record:
    same("a recorded node", run_logged(record)[0], 0)
*log, last = pathlib.Path("record").read_text().splitlines()
same("its last line", last, "left clean")
text = "".join(line + "\n" for line in log)

# the whole record, each beginning of it, and one line more
same("the record", audit(text), (0, "run whole turns %d\n" % turns_of(log)))
for count in range(len(log)):
    front = "".join(line + "\n" for line in log[:count])
    same("%d lines" % count, audit(front), (0, "run prefix turns %d\n" % turns_of(log[:count])))
    same("a cut after %d lines" % count, audit(front + log[count][:3]), (4, "fault BadSchedule line %d Unended\n" % (before + count + 1)))
same("a line more", audit(text + "now 0\n"), (18, "fault NotARun line %d\n" % (before + len(log) + 1)))
same("the line of the node", audit(text + last + "\n"), (4, "fault BadSchedule line %d UnknownWord\n" % (before + len(log) + 1)))

# other bytes written, another sector, a call left out, another call in its place
for place, line in enumerate(log):
    named = (18, "fault NotARun line %d\n" % (before + place + 1))
    wrong = [re.sub(r"^(read|write) (\d+)", lambda words: "%s %d" % (words[1], int(words[2]) + 1), line)]
    wrong += [re.sub(r"[0-9a-f]{2} ok$", lambda byte: "%02x ok" % (int(byte[0][:2], 16) ^ 1), line)] if line.startswith("write") else []
    wrong += ["disarm ok" if line.startswith("feed") else "feed ok"]
    for other in wrong:
        if other != line:
            lines = log[:place] + [other] + log[place + 1 :]
            same("line %d as %.40s" % (place + 1, other), audit("".join(line + "\n" for line in lines)), named)

# other words
same("another id", audit(text, "--id", "2", *WORDS[2:]), (16, "fault UnknownNode 2\n"))
same("no leave", audit(text, *WORDS[:4])[0], 18)

# a record that cannot be written
with open("/dev/full", "w") as full:
    status, said = run_logged(full)
same("a full disk", status, 7)
done = [done_of(event) for event in map(event_of, said.splitlines()) if event]
same("what it did", [line for line in done if line and not line.startswith("open")], ["start: ok", "stop: ok", "disarm: ok"])
same("the slot", cluster.listed(1), "incarnation 2 clean mail empty")
