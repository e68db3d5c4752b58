"""The supervisor of the resources without root, systemd and agents of others: its resources are files, which an agent of this script makes and removes; the node and
systemctl are played. The scenes go side by side, each as a process of its own in a folder of its own.

resource-supervisor.py SCENE    by hand: this one, in this folder
"""
import atexit
import concurrent.futures
import json
import os
import pathlib
import signal
import socket
import subprocess
import sys
import time

TOP = pathlib.Path(os.environ["TOP"])
PROGRAM = [sys.executable, "-B", str(TOP / "contrib" / "quorumd-resource")]
HERE = pathlib.Path.cwd()
RUN = HERE / "run"
AGENT = """#!/bin/sh
f=$OCF_RESKEY_file
echo "$1 ${f##*/}" >> "${f%/*}/said"
case $1 in
start) sleep "${OCF_RESKEY_starts-0}"; [ "${OCF_RESKEY_start-0}" = 0 ] || exit "$OCF_RESKEY_start"; touch "$f" ;;
stop) sleep "${OCF_RESKEY_stops-0}"; rm -f "$f" ;;
monitor) sleep "${OCF_RESKEY_monitors-0}"; echo "monitored ${f##*/}" >> "${f%/*}/said"; [ ! -e "$f.unknown" ] || kill -9 $$; [ -e "$f" ] || exit 7 ;;
esac
"""
SYSTEMCTL = """#!/bin/sh
echo "systemctl $*" >> "$CALLS"
case $1 in
start) [ "$2" = --no-block ] || echo active > unit ;;
stop) echo inactive > unit ;;
show) printf 'ActiveState=%s\\nControlGroup=\\nJob=\\n' "$(cat unit)" ;;
esac
"""


def put(path, text, mode=0o755):
    path.parent.mkdir(parents=True, exist_ok=True)
    path.write_text(text)
    path.chmod(mode)


if sys.argv[1:]:
    put(HERE / "ocf/resource.d/t/File", AGENT)
    put(HERE / "calls/systemctl", SYSTEMCTL)
    (HERE / "calls/quorumctl").symlink_to(os.environ["QUORUMCTL"])
    RUN.mkdir()
    (HERE / "unit").write_text("inactive\n")
SAID, CALLS = HERE / "said", HERE / "called"
ENVIRONMENT = {**os.environ, "OCF_ROOT": str(HERE / "ocf"), "QUORUMD_RESOURCES": str(HERE / "conf"), "QUORUMD_RUN": str(RUN), "QUORUMD_AGENT_ENV": str(HERE / "agent.env"),
               "PATH": "%s:%s" % (HERE / "calls", os.environ["PATH"]), "CALLS": str(CALLS)}


def until(wanted, what, seconds=40):
    end = time.monotonic() + seconds
    while not wanted():
        assert time.monotonic() < end, "not within %d s: %s\n%s" % (seconds, what, (HERE / "log").read_text()[-2000:])
        time.sleep(0.05)


class Running:
    """A supervisor over these resources: of each its name and its words."""

    def __init__(self, *resources, agent="group"):
        (HERE / "agent.env").write_text("AGENT=%s\n" % agent)
        (HERE / "conf").write_text("".join("[%s]\nagent = ocf:t:File\nfile = %s/f-%s\n%s\n" % (name, HERE, name, words) for name, words in resources))
        for path in (*RUN.iterdir(), *HERE.glob("f-*"), SAID, CALLS):
            if path.is_file() or path.is_socket():
                path.unlink()
        SAID.touch()
        CALLS.touch()
        (HERE / "log").write_text("")
        self.begin()

    def begin(self):
        with open(HERE / "log", "a") as log:
            self.child = subprocess.Popen([*PROGRAM, "run"], stdin=subprocess.DEVNULL, stdout=log, stderr=log, env=ENVIRONMENT, cwd=HERE)
        atexit.register(self.child.kill)
        until(lambda: (RUN / "group.sock").exists() and self.told(), "it begins")

    def kill(self):
        self.child.kill()
        self.child.wait()
        for name in ("group.sock", "agent.sock", "resource.json"):
            (RUN / name).unlink()

    def end(self):
        self.child.terminate()
        self.child.wait()

    @staticmethod
    def told():
        try:
            return json.loads((RUN / "resource.json").read_text())
        except (OSError, ValueError):
            return {}

    def until(self, **wanted):
        until(lambda: all(self.told().get(key) == value for key, value in wanted.items()), "%s, and not %s" % (wanted, self.told()))


def ask(line, name="agent.sock", seconds=20):
    """What the supervisor answers; None where it does not within that time, and the asker closes."""
    with socket.socket(socket.AF_UNIX, socket.SOCK_STREAM) as to:
        to.settimeout(seconds)
        to.connect(str(RUN / name))
        to.sendall(line.encode() + b"\n")
        try:
            return to.makefile().readline().strip()
        except TimeoutError:
            return None


def operator(*words):
    """The status of quorumd-resource, and what it writes."""
    done = subprocess.run([*PROGRAM, *words], stdout=subprocess.PIPE, stderr=subprocess.STDOUT, text=True, env=ENVIRONMENT, cwd=HERE, check=False)
    return done.returncode, done.stdout.split("\n")[:-1]


def same(got, wanted):
    assert got == wanted, "wanted %s\ngot    %s" % (wanted, got)


def acts():
    """What the agents were told, without monitors."""
    return [line for line in SAID.read_text().splitlines() if not line.startswith("monitor")]


def stop():
    """Asks for a stop until it is answered ok, once each fifth of a second; the answers."""
    answers = []
    while not answers or answers[-1] != "ok":
        assert len(answers) < 200, answers
        answers.append(ask("stop"))
        time.sleep(0.2)
    return answers


def up_and_down():
    """An opening, a start, and a stop, which begins at its second asking, goes in reverse and is ok once all are down."""
    one = Running(("a", ""), ("b", "stops = 1"))
    same(ask("stop"), "ok")
    same(ask("start"), "ok")
    one.until(state="runs", fine=True, held=True, goal="run")
    same(operator("status"), (0, ["a up", "b up", "group runs"]))
    assert (RUN / "started").exists()
    word, tick = (RUN / "group.word").read_text().split()
    assert word == "runs" and abs(int(tick) - time.clock_gettime(time.CLOCK_MONOTONIC_RAW) * 1000) < 5000
    same(ask("stop"), "no wait")
    time.sleep(0.5)
    same(acts(), ["start f-a", "start f-b"])
    answers = stop()
    same(set(answers[:-1]), {"no wait"})
    same(acts()[2:], ["stop f-b", "stop f-a"])
    one.until(state="down", fine=True, held=False)
    assert not (RUN / "started").exists()
    one.end()


def forgotten():
    """A stop that is asked for once costs nothing; one that began and is asked for no more is undone after ten seconds."""
    one = Running(("a", ""))
    ask("start")
    one.until(state="runs")
    same([ask("stop"), ask("stop")], ["no wait", "no wait"])
    one.until(state="down", fine=False, held=True)
    until(lambda: acts()[-1] == "start f-a", "it is started again", 15)
    one.until(state="runs", fine=True)
    stop()
    one.end()


def failures():
    """What fails is stopped and started again; after the limit all are stopped, and the node is to leave. What is not known is no failure. The count outlives the supervisor."""
    one = Running(("a", "monitor-interval = 1\nrestart-limit = 1"))
    ask("start")
    one.until(state="runs")
    (HERE / "f-a.unknown").touch()
    one.until(state="unsure", fine=True)
    (HERE / "f-a.unknown").unlink()
    one.until(state="runs")
    (HERE / "f-a").unlink()
    until(lambda: acts() == ["start f-a", "stop f-a", "start f-a"], "it is started again")
    one.until(state="runs")
    same([line.split(" ", 1)[1] for line in (RUN / "failures").read_text().splitlines()], ["a monitor says not-running"])
    one.kill()
    one.begin()
    one.until(state="runs")
    (HERE / "f-a").unlink()
    until(lambda: "systemctl start --no-block quorumd-handover.service" in CALLS.read_text(), "the node is to leave")
    same((RUN / "leave").read_text(), "a monitor says not-running\n")
    one.until(state="down", goal="leave")
    same(ask("stop"), "ok")
    one.until(goal="rest", fine=True)
    assert not (RUN / "leave").exists()
    one.end()


def in_vain():
    """A start that is in vain is not tried again."""
    one = Running(("a", "start = 5"))
    ask("start")
    until(lambda: "quorumd-handover" in CALLS.read_text(), "the node is to leave")
    same(acts(), ["start f-a", "stop f-a"])
    same((RUN / "leave").read_text(), "a start says hard\n")
    one.end()


def shows(members, candidate):
    """The node of this host shows a view with these members, which names that one."""
    tick = time.clock_gettime_ns(time.CLOCK_MONOTONIC_RAW) // 1000000
    put(RUN / "node-2.json", json.dumps({"end": None, "id": 2, "loop": 3000, "tick": tick, "view": {"candidate": candidate, "id": 1, "members": members}}), 0o644)


def unfit():
    """After a start that failed for good a node is unfit in place of leaving, where its view has another member and names who may start; its other words stay. One that holds
    on is to leave."""
    ENVIRONMENT["QUORUMD_UNFIT"] = "3"
    for members, candidate in ([2], 2), ([1, 2], None):
        one = Running(("a", "start = 5"))
        shows(members, candidate)
        ask("start")
        until(lambda: "quorumd-handover" in CALLS.read_text(), "the node is to leave")
        assert not (RUN / "standing-2").exists()
        one.end()
    one = Running(("a", "start = 5"))
    (RUN / "standing-2").write_text("weight 12\nfit yes\npull on\n")
    shows([1, 2], 2)
    ask("start")
    until(lambda: "fit no" in (RUN / "standing-2").read_text(), "the node is unfit")
    same((RUN / "standing-2").read_text(), "fit no\nweight 12\npull on\n")
    one.until(state="down", goal="leave")
    same((ask("stop"), CALLS.read_text()), ("ok", ""))
    one.until(goal="rest", fine=True)
    time.sleep(4)
    same((CALLS.read_text(), (RUN / "standing-2").read_text()), ("", "fit no\nweight 12\npull on\n"))
    shows([1, 2], 2)
    ask("start")
    until(lambda: "quorumd-handover" in CALLS.read_text(), "one that holds on is to leave")
    same(acts(), ["start f-a", "stop f-a"] * 2)
    one.end()


def moves():
    """A move is refused where nothing is held, and in maintenance; it is no failure, and the goal outlives the supervisor."""
    one = Running(("a", "stops = 2"))
    same(operator("move"), (1, ["quorumd-resource: not moved: this node does not hold them; quorumctl status names the one that does"]))
    ask("start")
    one.until(state="runs")
    same(operator("maintenance", "on"), (0, []))
    same(operator("move"), (1, ["quorumd-resource: not moved: maintenance is on"]))
    one.until(state="maintenance", fine=True)
    (HERE / "f-a").unlink()
    time.sleep(1)
    same(acts(), ["start f-a"])
    (HERE / "f-a").touch()
    same(operator("maintenance", "off"), (0, []))
    same(operator("move"), (0, []))
    one.until(state="stopping", goal="leave")
    one.kill()
    one.begin()
    until(lambda: "systemctl start --no-block quorumd-move.service" in CALLS.read_text(), "the node is to leave")
    assert not (RUN / "failures").exists()
    same(ask("stop"), "ok")
    one.end()


def a_start_goes_on():
    """A supervisor that is killed while a start is under way answers no stop ok and begins no second start until that one has ended."""
    one = Running(("a", "starts = 4"))
    ask("start")
    until(lambda: acts() == ["start f-a"], "it is begun")
    one.kill()
    one.begin()
    one.until(state="looking")
    time.sleep(1)
    same(acts(), ["start f-a"])
    one.until(state="runs")
    same(acts(), ["start f-a"])
    stop()
    ask("start")
    until(lambda: acts()[2:] == ["start f-a"], "it is begun")
    one.kill()
    one.begin()
    same(ask("stop"), "no wait")  # which ends the start
    answers = stop()
    same(set(answers[:-1]) | {"no wait"}, {"no wait"})
    time.sleep(3)
    assert not (HERE / "f-a").exists()
    one.end()


def gone_askers():
    """A start whose asker gave up, while the supervisor hung, starts nothing; nor does half a line."""
    one = Running(("a", ""))
    ask("stop")
    one.child.send_signal(signal.SIGSTOP)
    same(ask("start", seconds=1), None)
    one.child.send_signal(signal.SIGCONT)
    time.sleep(1)
    same((acts(), one.told()["held"]), ([], False))
    with socket.socket(socket.AF_UNIX, socket.SOCK_STREAM) as to:
        to.connect(str(RUN / "agent.sock"))
        to.sendall(b"sta")
    same(ask("halt"), "no unknown")
    same(ask("start"), "ok")
    one.until(state="runs")
    stop()
    one.end()


def files_that_cannot_be_written():
    """A status that cannot be written costs the status alone. A start that cannot be remembered is refused, and the node is to leave."""
    one = Running(("a", ""))
    ask("stop")
    (RUN / "resource.json.new").mkdir()
    same(ask("start"), "ok")
    until(lambda: acts() == ["start f-a"], "it is started")
    (RUN / "resource.json.new").rmdir()
    one.until(state="runs")
    stop()
    (RUN / "started").mkdir()
    same(ask("start"), "no refused")
    one.until(state="failed", fine=False, goal="leave")
    assert "quorumd-handover" in CALLS.read_text()
    same(acts(), ["start f-a", "stop f-a"])
    (RUN / "started").rmdir()
    same(ask("stop"), "ok")
    one.until(state="down", fine=True)
    one.end()


def file_at_fault():
    """Where the file is at fault no stop is ok and no start; a file that is edited is read at the next one, and what was started is stopped as it was."""
    one = Running(("a", ""))
    (HERE / "conf").write_text("[a]\n")
    same(ask("stop"), "no file")
    same(ask("start"), "no refused")
    (HERE / "conf").write_text("[b]\nagent = ocf:t:File\nfile = %s/f-b\n" % HERE)
    until(lambda: ask("stop") == "ok", "a stop is ok once the new resource was looked at")
    ask("start")
    one.until(state="runs", resources=[["b", "up"]])
    (HERE / "conf").write_text("[c]\nagent = ocf:t:File\nfile = %s/f-c\n" % HERE)
    one.kill()
    one.begin()
    one.until(resources=[["b", "up"]])
    stop()
    same(acts(), ["start f-b", "stop f-b"])
    one.end()


def many_probes():
    """The first monitors go side by side."""
    one = Running(*(("r%d" % number, "monitors = 5") for number in range(10)))
    until(lambda: "monitored" in SAID.read_text(), "the first one ends")
    assert SAID.read_text().split("monitored")[0].count("monitor") > 5, SAID.read_text()
    one.until(state="down")
    one.end()


def one_unit():
    """AGENT=service UNIT is a group of that unit."""
    one = Running(agent="service x.service")
    same(ask("stop"), "ok")
    same(ask("start"), "ok")
    one.until(state="runs", resources=[["x.service", "up"]])
    same(stop()[-1], "ok")
    assert "systemctl start x.service\n" in CALLS.read_text() and "systemctl stop x.service\n" in CALLS.read_text()
    one.end()


def no_resources():
    """AGENT=none has nothing to stop, and starts nothing."""
    one = Running(agent="none")
    one.until(state="down", resources=[], fine=True)
    same(ask("stop"), "ok")
    same(ask("start"), "no refused")
    one.until(state="failed", fine=False)
    assert "AGENT=none: this host has no resources" in (HERE / "log").read_text()
    same(ask("stop"), "ok")
    one.until(state="down", held=False)
    one.end()


SCENES = (up_and_down, forgotten, failures, in_vain, unfit, moves, a_start_goes_on, gone_askers, files_that_cannot_be_written, file_at_fault, many_probes, one_unit, no_resources)


def play(scene):
    """What a scene writes where it fails, as a process in a folder of its own."""
    folder = HERE / scene.__name__
    folder.mkdir()
    done = subprocess.run([sys.executable, "-B", __file__, scene.__name__], stdin=subprocess.DEVNULL, stdout=subprocess.PIPE, stderr=subprocess.STDOUT, text=True, cwd=folder, check=False)
    return "%s: %s" % (scene.__name__, done.stdout[-3000:]) if done.returncode else None


def main(words):
    if words:
        globals()[words[0]]()
        return 0
    with concurrent.futures.ThreadPoolExecutor(os.cpu_count()) as pool:
        failed = list(filter(None, pool.map(play, SCENES)))
    print(*failed, sep="\n")
    return 1 if failed else 0


sys.exit(main(sys.argv[1:]))
