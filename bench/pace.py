"""For bench/replay, bench/replay3, bench/replay-arbiter and bench/soak: times quorumd and a plain Rust program over events, or two commands of
quorumd, turn by turn in one run, and prints the events a second and the peak memory of each, how the time of an event grows, and the ratio of the
two."""
import array
import fcntl
import os
import shutil
import statistics
import subprocess
import tempfile
import termios
import time

FEW, MANY = 20000, 200000
# as rt builds quorumd: the whole program at once, for the same processors
RUSTC = ("rustc", "--edition", "2021", "-C", "opt-level=3", "-C", "lto=fat", "-C", "codegen-units=1", "-C", "panic=abort", "-C", "target-cpu=x86-64-v2")


def built(top, work, name, source):
    """The path of a plain Rust program of bench, which is built into the folder `work`."""
    path = os.path.join(work, name)
    subprocess.run([*RUSTC, "-o", path, os.path.join(top, "bench", source)], check=True)
    return path


def programs(program, top, work):
    """quorumd, and the plain program, where rustc is there."""
    found = [("quorumd", [program])]
    if shutil.which("rustc"):
        found.append(("plain Rust", [built(top, work, "plain", "plain/main.rs")]))
    return found


def peak(child):
    """The most memory of a running child in bytes: what the system tells of one that ended has the memory of this script in it."""
    with open("/proc/%d/status" % child.pid) as lines:
        return next(int(line.split()[1]) for line in lines if line.startswith("VmHWM:")) * 1024


def peak_of_input(words, path):
    """The most memory of a program that reads this file, asked for when it has taken all of it and before its input ends."""
    child = subprocess.Popen(words, stdin=subprocess.PIPE, stdout=subprocess.DEVNULL)
    with open(path, "rb") as source:
        shutil.copyfileobj(source, child.stdin)
    child.stdin.flush()
    waiting = array.array("i", [1])
    while waiting[0]:
        fcntl.ioctl(child.stdin, termios.FIONREAD, waiting)
        time.sleep(0.01)
    most = peak(child)
    child.stdin.close()
    assert child.wait() == 0
    return most


def output(run):
    """What a run writes."""
    with tempfile.TemporaryFile() as sink:
        run(sink)
        sink.seek(0)
        return sink.read()


def seconds(run):
    with tempfile.TemporaryFile() as sink:
        start = time.perf_counter()
        run(sink)
        return time.perf_counter() - start


def measure(found, runs, run, memory):
    """Compares the programs that were found, of which quorumd is the first. `run(words, count, sink)` plays so many events, and
    `memory(words, count)` is the peak of such a run."""
    medians = {}
    for count in (FEW, MANY):
        plays = {label: lambda sink, words=words: run(words, count, sink) for label, words in found}
        texts = [output(play) for play in plays.values()]
        assert all(text == texts[0] for text in texts), "the programs write different bytes"
        times = {label: [] for label in plays}
        for _ in range(runs):
            for label, play in plays.items():
                times[label].append(seconds(play))
        for label, words in found:
            medians[label, count] = median = statistics.median(times[label])
            print("%7d events  %-10s  %8.1f ms  %9.0f events/s  peak %5.1f MB" % (
                count, label, median * 1000, count / median, memory(words, count) / 1e6), flush=True)
    for label, _ in found:
        growth = medians[label, MANY] / MANY / (medians[label, FEW] / FEW)
        print("%s: an event of %d takes %.2f times as long as one of %d" % (label, MANY, growth, FEW))
    first = found[0][0]
    for label, _ in found[1:]:
        print("%s takes %.2f times as long as %s" % (first, medians[first, MANY] / medians[label, MANY], label))


def written(path, head, lines):
    """The path of a file of this head and these lines, which is written once."""
    if not os.path.exists(path):
        with open(path, "w") as file:
            file.write(head + "".join(line + "\n" for line in lines))
    return path


def played(words, path, sink):
    """The program plays the schedule of this path."""
    with open(path) as source:
        subprocess.run(words, stdin=source, stdout=sink, check=True)


def compare(commands, runs, words_of, path_of):
    """Compares two commands of quorumd. `words_of(command)` calls one, and `path_of(command, count)` is its schedule of so many events."""
    medians = {}
    for count in (FEW, MANY):
        times = {command: [] for command in commands}
        for _ in range(runs):
            for command in commands:
                path = path_of(command, count)
                times[command].append(seconds(lambda sink, command=command, path=path: played(words_of(command), path, sink)))
        for command in commands:
            medians[command, count] = median = statistics.median(times[command])
            print("%7d events  %-14s %8.1f ms  %9.0f events/s" % (count, command, median * 1000, count / median), flush=True)
    for command in commands:
        growth = medians[command, MANY] / MANY / (medians[command, FEW] / FEW)
        print("%s: an event of %d takes %.2f times as long as one of %d" % (command, MANY, growth, FEW))
    one, other = commands
    print("an event of %s takes %.2f times as long as one of %s" % (other, medians[other, MANY] / medians[one, MANY], one))


def print_bytes_of(what, words, path_of, number_of):
    """Prints what such a thing takes: what the peak of MANY events has over that of FEW, by how many more there are in the trace."""
    memory, numbers = [], []
    for path in map(path_of, (FEW, MANY)):
        memory.append(peak_of_input(words, path))
        numbers.append(number_of(output(lambda sink, path=path: played(words, path, sink))))
    each = (memory[1] - memory[0]) / (numbers[1] - numbers[0])
    print("a %s takes %.0f bytes: %d of them, peak %.1f MB" % (what, each, numbers[1], memory[1] / 1e6))
