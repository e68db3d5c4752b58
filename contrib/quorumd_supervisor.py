"""The supervisor of the resources of this host: the main process of quorumd-resource.service, which runs as long as the host does. It starts processes,
waits for them, listens to the node and to operators, and tells how the resources stand. What is to be done `quorumctl group` says, its child: each event is
a line, and each answer says what is to be run.

In /run/quorumd:
agent.sock       the node: a line `start` or `stop`, answered `ok` or `no WORD`. systemd hands the socket over
group.sock       operators: `move`, `maintenance on`, `maintenance off`
started          is there while the node holds: made before the first start, and removed before a stop is answered `ok`
leave            why the node is to leave: `move`, or a resource and what it failed at
standing-ID      the words of the node's host, which the node reads: `fit no` after a start that failed for good; one program writes at a time (standing.lock)
failures         a line for each failure that was counted: milliseconds since the boot, resource, what it failed at
start-PID        a start of an agent that is under way: its session, and when that began
resources.conf   what was started, which is stopped also where the file was changed since
resource.json    how the resources stand, at each change and each second; group.word the same in two words, for the node
"""
import fcntl
import glob
import json
import os
import select
import shutil
import socket
import subprocess
import sys
import time

import quorumd_resources as resources
from quorumd_resources import BROKEN, NOT_RUNNING, OK, RUN, UNKNOWN

STEP = ["quorumctl", "group"]
HELD, LEAVE, FAILURES, COPY, MAINTENANCE = (RUN + "/" + name for name in ("started", "leave", "failures", "resources.conf", "maintenance"))
STATUS, WORD = RUN + "/resource.json", RUN + "/group.word"
ROUND = 0.1  # seconds between two rounds at the most
LONGEST_LOOP = 3600000  # milliseconds
TOLD = 1000  # milliseconds after which how it stands is written again
# How long the answer to a stop is kept back where nothing is held and something may run: at the opening of a node, which has armed nothing yet and asks once.
OPENING = 15.0
# How long a node that was said to be unfit is waited for: it goes on where no other one can hold, and is then to leave as after any other failure.
UNFIT = float(os.environ.get("QUORUMD_UNFIT", "60"))


def say(level, text):
    print("<%d>%s" % (level, text), file=sys.stderr, flush=True)


def notify(text):
    path = os.environ.get("NOTIFY_SOCKET")
    if path:
        with socket.socket(socket.AF_UNIX, socket.SOCK_DGRAM) as to:
            try:
                to.sendto(text.encode(), "\0" + path[1:] if path[0] == "@" else path)
            except OSError:
                pass  # in a shutdown systemd is gone before this


def now():
    """Milliseconds since the boot, by the clock that the node goes by and no time daemon slews."""
    return time.clock_gettime_ns(time.CLOCK_MONOTONIC_RAW) // 1000000


def is_there(path):
    """Whether the file is there; an error where that cannot be known."""
    try:
        os.stat(path)
        return True
    except FileNotFoundError:
        return False


def remove(path):
    try:
        os.remove(path)
    except FileNotFoundError:
        pass


def write(path, text):
    """Writes a file, whole or not at all."""
    with open(path + ".new", "w") as file:
        file.write(text)
    os.replace(path + ".new", path)


def lines_of(path):
    try:
        with open(path) as file:
            return file.read().splitlines()
    except OSError:
        return []


def shown_nodes():
    """What the nodes of this host show of themselves."""
    for path in glob.glob(RUN + "/node-*.json"):
        try:
            with open(path) as file:
                shown = json.load(file)
        except (OSError, ValueError):
            continue
        if isinstance(shown, dict):
            yield shown


def can_be_relieved(shown):
    """Whether a node runs whose view has another member, and names who may start."""
    loop, tick, view = shown.get("loop"), shown.get("tick"), shown.get("view")
    if not (isinstance(loop, int) and isinstance(tick, int) and isinstance(view, dict)) or shown.get("end") is not None:
        return False
    return 0 <= now() - tick <= 3 * loop + 1000 and view.get("candidate") is not None and len(view.get("members", [])) > 1


def put_word(ident, word, value):
    """Writes a word into those of a node, whose others stay."""
    path = "%s/standing-%d" % (RUN, ident)
    with open(RUN + "/standing.lock", "w") as lock:
        fcntl.flock(lock, fcntl.LOCK_EX)
        others = [line for line in lines_of(path) if line.split(" ")[0] != word]
        write(path, "".join(line + "\n" for line in ["%s %s" % (word, value), *others]))


class Step:
    """What is to be done, event by event: `quorumctl group`, as a child."""

    def __init__(self, rules, is_held):
        self.child = subprocess.Popen(STEP, stdin=subprocess.PIPE, stdout=subprocess.PIPE, text=True, bufsize=1)
        self.goal, self.phases, self.told = "rest", [], ("down", None, True)
        for rule in rules:
            self.write("resource %d %d %d %d %d %d" % rule)
        self.event("begin held" if is_held else "begin released")

    def write(self, line):
        self.child.stdin.write(line + "\n")
        self.child.stdin.flush()

    def event(self, line):
        """Hands an event over; the lines of the answer that say what is to be done."""
        self.write(line)
        given = []
        while True:
            words = self.child.stdout.readline().split()
            if not words:
                raise SystemExit("%s ended, at the line %r" % (" ".join(STEP), line))
            if words[0] == "goal":
                self.goal = words[1]
            elif words[0] == "phases":
                self.phases = words[1:]
            elif words[0] == "told":
                self.told = (words[1], None if words[2] == "-" else int(words[2]), words[3] == "yes")
                return given
            else:
                given.append(words)

    def is_down(self):
        return all(phase == "down" for phase in self.phases)


class Action:
    """A process that is under way for a resource. Of an agent's start it is noted, before it begins, which session it is."""

    def __init__(self, resource, verb):
        self.resource, self.verb, self.begun, self.is_late, self.is_killed = resource, verb, now(), False, False
        seconds = resource.seconds(verb)
        self.end = self.begun + 1000 * seconds if seconds else None
        self.is_noted = verb == "start" and resource.kind == "agent"
        is_read = verb == "monitor" and resource.kind == "unit"
        self.child = subprocess.Popen(resource.words(verb), stdin=subprocess.DEVNULL, stdout=subprocess.PIPE if is_read else sys.stderr, env=resource.environment(verb),
                                      start_new_session=True, text=True, preexec_fn=self.write_note if self.is_noted else None)

    @staticmethod
    def write_note():
        """In the child, before the agent begins."""
        with open("%s/start-%d" % (RUN, os.getpid()), "w") as file:
            file.write("%d %d\n" % (os.getpid(), resources.session_of(os.getpid())[1]))

    def kill(self):
        self.is_killed = True
        resources.end_session(self.child.pid)

    def outcome(self):
        """What it came to; None while it is under way."""
        if self.child.poll() is None:
            if self.end is not None and now() > self.end and not self.is_late:
                self.is_late = True
                self.kill()
            return None
        if self.is_noted:
            remove("%s/start-%d" % (RUN, self.child.pid))
        status = self.child.returncode
        text = self.child.stdout.read() if self.child.stdout else ""
        return UNKNOWN if self.is_late or status < 0 else self.resource.outcome(self.verb, status, text)


class Failed:
    """A process that could not be begun."""

    is_late, is_killed, end, begun = False, False, None, 0

    def __init__(self, resource, verb):
        self.resource, self.verb = resource, verb

    def kill(self):
        pass

    def outcome(self):
        return BROKEN


def begin(resource, verb):
    try:
        return Action(resource, verb)
    except (OSError, subprocess.SubprocessError) as error:
        say(3, "%s: %s is not begun: %s" % (resource.name, verb, error))
        return Failed(resource, verb)


def rule_of(resource):
    """The numbers of a resource as the step takes them. How long a start of a unit is looked at says systemd."""
    numbers = resource.numbers
    check = resource.seconds("start")
    return (1000 * numbers["monitor-interval"], 1000 * numbers["monitor-patience"], 1000 * check, 1000 * numbers["stop-timeout"], numbers["restart-limit"],
            1000 * numbers["restart-window"])


def earlier_starts():
    """The sessions of starts that an earlier supervisor began, and that are under way."""
    found = []
    for path in glob.glob(RUN + "/start-*"):
        words = (lines_of(path) or [""])[0].split()
        session = resources.session_of(int(words[0])) if len(words) == 2 else None
        if session and session[1] == int(words[1]):
            found.append(session[0])
        else:
            remove(path)
    return found


class Supervisor:
    def __init__(self):
        os.makedirs(RUN, 0o755, exist_ok=True)
        is_held = is_there(HELD)
        self.resources = self.first_resources(is_held)
        self.actions, self.waiting, self.turn, self.written, self.shown, self.unwritten = {}, [], None, 0, None, None
        self.refused = None  # why a start was refused
        self.unfit_since = None  # when the node was said to be unfit, while it holds
        self.earlier = earlier_starts()
        self.begin_step(is_held)
        if is_held and is_there(LEAVE):
            self.event("move")

    @staticmethod
    def first_resources(is_held):
        """What was started, where the node holds; else what the file names, and none where it is at fault: a stop and a start read it again."""
        if is_held:
            return resources.resources_of(COPY) if is_there(COPY) else resources.resources()
        try:
            return resources.resources()
        except resources.Wrong as wrong:
            say(4, str(wrong))
            return []

    def begin_step(self, is_held):
        self.step = Step([rule_of(resource) for resource in self.resources], is_held)
        self.is_held, self.turn = is_held, None
        names = [resource.name for resource in self.resources]
        for words in (line.split(" ", 2) for line in lines_of(FAILURES)):
            if len(words) == 3 and words[0].isdecimal() and words[1] in names:
                self.step.write("failed %d %s" % (names.index(words[1]), words[0]))
        if is_there(MAINTENANCE):
            self.event("maintenance on")

    def event(self, line, why=""):
        """One event, and what is to be done then; the word of the answer, where there is one. `why` is what a failure of it is counted for."""
        answer = None
        for words in self.step.event(line):
            if words[0] == "run":
                self.run_action(int(words[1]), words[2])
            elif words[0] == "kill":
                self.actions[int(words[1])].kill()
            elif words[0] == "leave":
                self.leave()
            elif words[0] == "counted":
                self.count(self.resources[int(words[1])].name, why)
            else:
                answer = words[1]
        self.note_goal(line, why)
        return answer

    def run_action(self, at, verb):
        if verb != "monitor":
            say(5, "%s: %s" % (self.resources[at].name, verb))
        self.actions[at] = begin(self.resources[at], verb)

    def count(self, name, why):
        say(4, "%s: FAILED: %s" % (name, why))
        try:
            with open(FAILURES, "a") as file:
                file.write("%d %s %s\n" % (now(), name, why))
        except OSError as error:
            say(4, "%s: %s" % (FAILURES, error.strerror))

    def note_goal(self, line, why):
        """Why the node is to leave stands in a file as long as it is to."""
        try:
            if self.step.goal != "leave":
                if not self.refused:
                    remove(LEAVE)
            elif not is_there(LEAVE):
                at = int(line.split()[1]) if line.startswith("ended") else None
                write(LEAVE, "move\n" if at is None else "%s %s\n" % (self.resources[at].name, why))
        except OSError as error:
            say(4, "%s: %s" % (LEAVE, error.strerror))

    def leave(self):
        """All are down, and the node is to leave. Where a start failed for good and another node can hold, it is unfit in place of that."""
        why = " ".join(lines_of(LEAVE))
        if not self.refused and why.partition(" ")[2].startswith("start") and self.say_unfit():
            self.unfit_since = time.monotonic()
            say(4, "all are down: this node is unfit (%s). Mend it; quorumctl fit" % why)
        else:
            self.hand_over()

    @staticmethod
    def say_unfit():
        """Says of the node of this host that it may not hold now, where another one can; whether that was said."""
        for shown in shown_nodes():
            if can_be_relieved(shown):
                try:
                    put_word(shown["id"], "fit", "no")
                    return True
                except (OSError, KeyError, TypeError) as error:
                    say(4, "the node is not said to be unfit: %s" % error)
        return False

    def end_of_patience(self):
        """A node that is unfit, and holds on, is to leave."""
        if self.unfit_since is not None and time.monotonic() - self.unfit_since > UNFIT:
            self.unfit_since = None
            self.hand_over()

    def hand_over(self):
        """The node is to leave: by the unit that does so."""
        is_move = lines_of(LEAVE) == ["move"]
        say(4, "all are down: this node is to leave%s" % ("" if is_move else " (%s)" % " ".join(lines_of(LEAVE))))
        unit = "quorumd-move.service" if is_move else "quorumd-handover.service"
        subprocess.run(["systemctl", "start", "--no-block", unit], stdin=subprocess.DEVNULL, check=False)

    def start(self):
        """The node starts the group: what is started is the file as it is now, and it is remembered that the node holds."""
        try:
            os.close(os.open(HELD, os.O_WRONLY | os.O_CREAT, 0o600))
            self.read_again()
            if not self.resources:
                raise resources.Wrong("%s: AGENT=none: this host has no resources" % resources.AGENT_ENV)
            if resources.agent_words() == ["group"]:
                shutil.copyfile(resources.CONF, COPY)
            else:
                remove(COPY)
        except (OSError, resources.Wrong) as error:
            self.refused = str(error)
            say(2, "no start: %s" % error)
            try:
                remove(HELD)
                write(LEAVE, "start is refused: %s\n" % error)
            except OSError:
                pass
            self.leave()
            return "refused"
        self.refused = None
        self.is_held = True
        return self.event("start")

    def read_again(self):
        """The file may be another one than that of before. Where nothing is held and nothing is under way the group is that of the file, of which nothing is known
        yet."""
        fresh = resources.resources()
        if not self.is_held and not self.actions and [vars(one) for one in fresh] != [vars(one) for one in self.resources]:
            self.step.child.stdin.close()
            self.step.child.wait()
            self.resources = fresh
            self.begin_step(False)

    def stop(self):
        """The node asks for a stop; the word of the answer."""
        try:
            if not self.is_held:
                self.read_again()
        except resources.Wrong as wrong:
            say(3, "no stop: %s" % wrong)
            return "file"
        answer = self.event("stop")
        if answer == "ok":
            remove(HELD)
            remove(LEAVE)
            self.is_held, self.refused, self.unfit_since = False, None, None
        return answer

    def ends(self):
        """Hands on each action that has ended."""
        for at, action in list(self.actions.items()):
            outcome = action.outcome()
            if outcome is None:
                continue
            del self.actions[at]
            name, verb, phase = self.resources[at].name, action.verb, self.step.phases[at]
            if action.is_late:
                say(4, "%s: %s did not end within %d s" % (name, verb, (action.end - action.begun) // 1000))
            elif action.is_killed:
                say(5, "%s: %s is called off" % (name, verb))
            elif outcome not in (OK, NOT_RUNNING) or verb == "stop":
                say(5 if outcome == OK else 4, "%s: %s says %s after %.1f s" % (name, verb, outcome, (now() - action.begun) / 1000))
            before = "start: " if phase == "checking" else ""
            self.event("ended %d %s %s" % (at, verb, outcome), "%s%s says %s" % (before, verb, outcome))

    def tell_loop(self):
        """How often the node asks, by its status file."""
        for shown in shown_nodes():
            turn = shown.get("loop")
            if isinstance(turn, int) and 0 < turn <= LONGEST_LOOP and turn != self.turn:
                self.turn = turn
                self.step.write("loop %d" % turn)

    def tell(self):
        """Writes how the resources stand, at each change and each second. Where it cannot be written, that alone is lost."""
        word, at, is_fine = ("failed", None, False) if self.refused else self.step.told
        goal = "leave" if self.refused else self.step.goal
        shown = {"fine": is_fine, "format": 1, "goal": goal, "held": self.is_held, "maintenance": is_there(MAINTENANCE),
                 "resource": None if at is None else self.resources[at].name,
                 "resources": [[resource.name, phase] for resource, phase in zip(self.resources, self.step.phases)], "state": word}
        tick = now()
        if shown == self.shown and tick - self.written < TOLD:
            return
        if self.shown is None or (word, shown["resource"]) != (self.shown["state"], self.shown["resource"]):
            say(6 if is_fine or word == "down" else 4, "resources: %s%s" % (word, "" if at is None else " (%s)" % shown["resource"]))
        self.tell_loop()
        self.shown, self.written = shown, tick
        try:
            write(STATUS, json.dumps({**shown, "tick": tick}) + "\n")
            write(WORD, "%s %d\n" % (word, tick))
            self.unwritten = None
        except OSError as error:
            if error.strerror != self.unwritten:
                say(4, "%s: %s" % (STATUS, error.strerror))
            self.unwritten = error.strerror

    def answer(self, peer, line):
        """Answers a request; whether its connection is done with."""
        if line == "stop":
            for session in self.earlier:
                resources.end_session(session)
            answer = self.stop()
            if answer in ("wait", "stuck") and not self.is_held:
                self.waiting.append((time.monotonic() + OPENING, peer))
                return False
        elif line == "start":
            answer = self.start()
        else:
            answer = self.operator(line)
        self.send(peer, answer)
        return True

    def operator(self, line):
        """What an operator is answered."""
        if line == "move":
            return "refused" if is_there(MAINTENANCE) else self.event("move")
        if line not in ("maintenance on", "maintenance off"):
            return "unknown"
        try:
            if line == "maintenance on":
                write(MAINTENANCE, "")
            else:
                remove(MAINTENANCE)
        except OSError as error:
            return error.strerror
        self.event(line)
        return "ok"

    @staticmethod
    def send(peer, answer):
        try:
            peer.sendall(b"ok\n" if answer == "ok" else b"no %s\n" % answer.encode())
        except OSError as error:
            say(4, "an answer is not taken: %s" % error.strerror)

    def answer_waiting(self):
        """Answers the stops of an opening: where all are down, and at the latest after their time."""
        for end, peer in list(self.waiting):
            if self.step.is_down() or time.monotonic() > end:
                self.waiting.remove((end, peer))
                self.send(peer, self.stop())
                peer.close()

    def wait_for_earlier(self):
        """Whether a start that an earlier supervisor began is still under way."""
        if self.earlier:
            self.earlier = earlier_starts()
        return bool(self.earlier)

    def turn_once(self):
        """A round: what ended, and what is due."""
        if self.wait_for_earlier():
            self.tell()
            return
        self.ends()
        self.event("tick %d" % now())
        self.end_of_patience()
        self.answer_waiting()
        self.tell()


class Door:
    """The sockets: connections that come, and the line of each. A request whose asker closed is passed over."""

    def __init__(self):
        self.listeners, self.askers = [], {}
        if os.environ.get("LISTEN_FDS"):
            self.listeners.append(socket.socket(fileno=3))
        else:
            self.listeners.append(self.listen(RUN + "/agent.sock"))
        self.listeners.append(self.listen(RUN + "/group.sock"))

    @staticmethod
    def listen(path):
        remove(path)
        own = socket.socket(socket.AF_UNIX, socket.SOCK_STREAM)
        own.bind(path)
        os.chmod(path, 0o600)
        own.listen(8)
        return own

    def requests(self):
        """The requests that are whole, each with its connection, whose asker waits."""
        ready, _, _ = select.select(self.listeners + list(self.askers), [], [], ROUND)
        for one in ready:
            if one in self.listeners:
                peer, _ = one.accept()
                peer.setblocking(False)
                self.askers[peer] = b""
            else:
                yield from self.read(one)

    def read(self, peer):
        try:
            got = peer.recv(100)
        except OSError:
            got = b""
        line = self.askers.pop(peer) + got
        if b"\n" in line and self.waits(peer):
            yield peer, line.split(b"\n")[0].decode("ascii", "replace")
        elif got and b"\n" not in line and len(line) < 100:
            self.askers[peer] = line
        else:
            peer.close()

    @staticmethod
    def waits(peer):
        """Whether the asker waits for the answer."""
        try:
            return peer.recv(1, socket.MSG_PEEK) != b""
        except BlockingIOError:
            return True
        except OSError:
            return False


def run():
    """Does not return."""
    supervisor, door = Supervisor(), Door()
    notify("READY=1")
    fed = 0
    while True:
        for peer, line in door.requests():
            if supervisor.answer(peer, line):
                peer.close()
        supervisor.turn_once()
        if now() - fed > 1000:
            fed = now()
            notify("WATCHDOG=1")
