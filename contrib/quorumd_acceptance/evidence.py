"""What is seen of the hosts: a command that runs on each of them and says five times a second which of its resources are there, and a client that writes rows. The
clock of this machine stamps all of it."""
import os
import select
import shlex
import signal
import subprocess
import threading
import time
from dataclasses import dataclass

from .judge import Row, Sample

LATE = 1.0  # seconds: a line that was on its way for longer says nothing of now
DRIFT = 0.01  # between two clocks
SILENT = 5.0  # seconds without a line after which a host is reached anew
TICKS = 100  # of the time of a process, in a second
# ROOT stands before the paths in a test
LOOK = r"""
boot=$(cut -c 1-8 "${ROOT-}/proc/sys/kernel/random/boot_id")
start=$(sed 's/.*) //' "${ROOT-}/proc/1/stat" | cut -d ' ' -f 20)
while :; do
    signs=
    %s
    read -r up _ < "${ROOT-}/proc/uptime"
    echo "$boot.$start $up ${signs:--}" || exit
    sleep 0.15
done
"""

# how many times as long as alone a fixed loop takes on a host now, one on each processor
LOAD = """python3 - << 'END'
import multiprocessing, time
def loop(_):
    begun, used = time.monotonic(), time.process_time()
    sum(range(8000000))
    return (time.monotonic() - begun) / (time.process_time() - used)
with multiprocessing.Pool() as pool:
    took = pool.map(loop, range(multiprocessing.cpu_count()))
print("%.2f" % max(1.0, sum(took) / len(took)))
END
"""


@dataclass(frozen=True)
class Answer:
    """What a command came to; status None where it had no end in its time."""
    status: int
    text: str
    errors: str

    def ok(self):
        return self.status == 0


def end(child):
    """Ends a command with all that it started here."""
    try:
        os.killpg(child.pid, signal.SIGKILL)
    except ProcessLookupError:
        pass
    child.wait()


def carried_out(words, limit, shell=False):
    """Runs a command of this machine."""
    try:
        child = subprocess.Popen(words, shell=shell, stdin=subprocess.DEVNULL, stdout=subprocess.PIPE, stderr=subprocess.PIPE, text=True, errors="replace", start_new_session=True)
    except OSError as fault:
        return Answer(127, "", "%s: %s" % (words[0], fault.strerror))
    try:
        text, errors = child.communicate(timeout=limit)
    except subprocess.TimeoutExpired:
        end(child)
        return Answer(None, "", "no end within %d seconds" % limit)
    return Answer(child.returncode, text, errors)


def words_for(plan, host, command):
    """The words that run a command on a host."""
    return [word.replace("{host}", host) for word in shlex.split(plan.texts["reach"])] + [command]


def on(plan, host, command, limit=20):
    """Runs a command on a host."""
    return carried_out(words_for(plan, host, command), limit)


def load_of(plan):
    """How many times as long as alone a fixed loop takes on the slowest of the hosts; None where one does not say it."""
    answers = [on(plan, host, LOAD, 120) for host in plan.hosts()]
    return max(float(answer.text) for answer in answers) if all(answer.ok() for answer in answers) else None


class Clock:
    """Tells lines of a boot that were long on their way, by the time that the host has been up."""

    def __init__(self):
        self.offsets = {}

    def is_late(self, boot, up, now):
        offset, seen = now - up, self.offsets.get(boot)
        if seen is not None:
            least, when = seen
            if offset > least + LATE + DRIFT * (now - when):
                return True
            offset = min(offset, least + DRIFT * (now - when))
        self.offsets[boot] = (offset, now)
        return False


def sample_of(line, host, clock, now):
    """The look that a line is, or None."""
    words = line.split()
    try:
        boot, up, signs = words
        start = float(boot.partition(".")[2]) / TICKS
        up = float(up)
    except ValueError:
        return None
    if clock.is_late(boot, up, now):
        return None
    return Sample(now, host, boot, now - (up - start), frozenset(signs.strip(",-").split(",")) - {""})


class Watch(threading.Thread):
    """Looks at a host as long as it is wanted, and reaches it anew where that ends."""

    def __init__(self, plan, host, take):
        super().__init__(daemon=True)
        checks = "\n    ".join('{ %s; } > /dev/null 2>&1 && signs=$signs,%s' % (command, name) for name, command in plan.signs.items())
        self.words, self.host, self.take = words_for(plan, host, LOOK % checks), host, take
        self.over, self.clock = threading.Event(), Clock()

    def run(self):
        while not self.over.is_set():
            try:
                child = subprocess.Popen(self.words, stdin=subprocess.DEVNULL, stdout=subprocess.PIPE, stderr=subprocess.DEVNULL, start_new_session=True)
            except OSError:
                return
            with child:
                self.read(child)
                end(child)
            self.over.wait(0.3)

    def read(self, child):
        """Takes lines until there are none."""
        rest = b""
        while not self.over.is_set() and select.select([child.stdout], [], [], SILENT)[0]:
            part = os.read(child.stdout.fileno(), 65536)
            if not part:
                return
            *lines, rest = (rest + part).split(b"\n")
            for line in lines:
                sample = sample_of(line.decode(errors="replace"), self.host, self.clock, time.monotonic())
                if sample:
                    self.take(sample)


class Writer(threading.Thread):
    """Writes a row after the other, and keeps which were acknowledged."""

    def __init__(self, command, take):
        super().__init__(daemon=True)
        self.command, self.take, self.over = command, take, threading.Event()

    def run(self):
        number = int(time.time()) * 1000
        while not self.over.is_set():
            number += 1
            if carried_out(self.command.replace("{row}", str(number)), 3, shell=True).ok():
                self.take(Row(time.monotonic(), number))
            self.over.wait(0.1)


class Bed:
    """All that is seen of the hosts of a plan, from its opening to its close."""

    def __init__(self, plan):
        self.plan, self.samples, self.rows, self.newest = plan, [], [], {}
        self.threads = [Watch(plan, host, self.take) for host in plan.hosts()]
        if plan.texts["write"]:
            self.threads.append(Writer(plan.texts["write"], self.rows.append))
        for thread in self.threads:
            thread.start()

    def take(self, sample):
        self.samples.append(sample)
        self.newest[sample.host] = sample

    def close(self):
        for thread in self.threads:
            thread.over.set()
        for thread in self.threads:
            thread.join(SILENT + 5)

    def since(self, begin, end):
        """The looks from `begin` to `end`, in their order."""
        return tuple(sorted((sample for sample in list(self.samples) if begin <= sample.when <= end), key=lambda sample: sample.when))

    def rows_since(self, begin, end):
        if not self.plan.texts["write"]:
            return None
        return tuple(row for row in list(self.rows) if begin <= row.when <= end)

    def found(self, limit):
        """The rows that the database has now, which has so long to answer; None where it does not."""
        end, done = time.monotonic() + limit, None
        while done is None or (not done.ok() and time.monotonic() < end):
            done = carried_out(self.plan.texts["read"], 60, shell=True)
            time.sleep(0 if done.ok() else 1)
        return frozenset(int(word) for word in done.text.split() if word.isdigit()) if done.ok() else None

    def last_of(self, host, boot):
        """When that boot of a host was last seen."""
        return max(sample.when for sample in list(self.samples) if sample.host == host and sample.boot == boot)

    def owners(self):
        """The hosts that have each of the resources now."""
        now, wanted = time.monotonic(), set(self.plan.signs)
        looks = [self.newest.get(host) for host in self.plan.hosts()]
        return [look.host for look in looks if look and now - look.when < 1.5 and look.signs == wanted]

    def is_seen(self, host):
        look = self.newest.get(host)
        return look is not None and time.monotonic() - look.when < 1.5
