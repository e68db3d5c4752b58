"""The resources of a host, as /etc/quorumd/resources.conf names them: what is run for each, and what the end of that says. Read by quorumd-resource and
by quorumd_supervisor beside it.

Each is an OCF resource agent or a unit of systemd. What an action comes to is one of

ok            it is done; of a monitor: it runs
not-running   a monitor says that nothing of it runs
broken        it failed
hard          a start failed, and another try is in vain
unknown       nothing is known: no end in its time, a signal, or an answer that says nothing
"""
import configparser
import errno
import os
import re
import signal
import stat
import subprocess
import sys

CONF = os.environ.get("QUORUMD_RESOURCES", "/etc/quorumd/resources.conf")
AGENT_ENV = os.environ.get("QUORUMD_AGENT_ENV", "/etc/quorumd/agent.env")
AGENTS = os.environ.get("OCF_ROOT", "/usr/lib/ocf")
RUN = os.environ.get("QUORUMD_RUN", "/run/quorumd")
OK, NOT_RUNNING, BROKEN, HARD, UNKNOWN = "ok", "not-running", "broken", "hard", "unknown"
NUMBERS = {"monitor-interval": 10, "monitor-timeout": 20, "monitor-patience": 60, "start-timeout": 0, "stop-timeout": 60, "restart-limit": 3, "restart-window": 3600}
MAY_BE_0 = ("restart-limit", "monitor-patience")
OCF_NOT_RUNNING = 7
OCF_RUNS = (0, 8, 190, 191)  # also promoted, and degraded
OCF_HARD = (2, 3, 4, 5, 6)  # arguments, not implemented, permission, not installed, not configured: a second try is in vain
OCF_START_TIMEOUT = 300


class Wrong(Exception):
    """The file is at fault."""


def systemctl(*words):
    done = subprocess.run(["systemctl", *words], stdin=subprocess.DEVNULL, stdout=subprocess.PIPE, text=True, check=False)
    return done.stdout.strip()


def has_process(group):
    """Whether a process is in the control group of a unit."""
    for root in ("/sys/fs/cgroup", "/sys/fs/cgroup/unified"):
        try:
            with open(root + group + "/cgroup.events") as file:
                if group and "populated 1" in file.read():
                    return True
        except OSError:
            pass
    return False


class Unit:
    """A unit of systemd. How long its start may take is its own TimeoutStartSec=."""

    kind = "unit"

    def __init__(self, name, unit, numbers, words=()):
        if words:
            raise Wrong("%s: a unit has no parameter %s" % (name, min(words)))
        self.name, self.unit, self.numbers = name, unit, numbers

    def check(self):
        """What is at fault with it, if anything."""
        if systemctl("show", "-P", "LoadState", self.unit) != "loaded":
            return "no unit %s" % self.unit
        if systemctl("is-enabled", self.unit) in ("enabled", "enabled-runtime"):
            return "%s is enabled: a boot would start it" % self.unit
        return None

    def seconds(self, verb):
        """How long an action may take; 0 without end."""
        return 0 if verb == "start" else self.numbers[verb + "-timeout"]

    def words(self, verb):
        if verb == "monitor":
            return ["systemctl", "show", "-p", "ActiveState", "-p", "ControlGroup", "-p", "Job", self.unit]
        return ["systemctl", verb, self.unit]

    def environment(self, verb):
        return dict(os.environ)

    def outcome(self, verb, status, text):
        """What the end of an action says, by its status and what it wrote."""
        if verb != "monitor":
            return OK if status == 0 else UNKNOWN if verb == "stop" else BROKEN
        shown = dict(line.split("=", 1) for line in text.splitlines() if "=" in line)
        state, has_job = shown.get("ActiveState"), shown.get("Job", "0") not in ("", "0")
        if status or state is None:
            return UNKNOWN
        if state in ("active", "reloading", "refreshing"):
            return OK
        if state in ("inactive", "failed") and not has_job:
            return BROKEN if has_process(shown.get("ControlGroup", "")) else NOT_RUNNING
        return UNKNOWN


class Agent:
    """A resource agent of the Open Cluster Framework."""

    kind = "agent"

    def __init__(self, name, words, numbers, parameters):
        parts = re.fullmatch(r"ocf:(\w[\w.-]*):(\w[\w.-]*)", words, re.ASCII)
        if not parts:
            raise Wrong("%s: %s is no ocf:PROVIDER:TYPE" % (name, words))
        for key in parameters:
            if not re.fullmatch(r"[A-Za-z_]\w*", key, re.ASCII):
                raise Wrong("%s: %s is no name of a parameter" % (name, key))
        self.provider, self.type = parts.groups()
        self.name, self.numbers, self.parameters = name, numbers, parameters
        self.program = "%s/resource.d/%s/%s" % (AGENTS, self.provider, self.type)

    def check(self):
        """What is at fault with it, if anything."""
        if not os.access(self.program, os.X_OK):
            return "no agent %s" % self.program
        done = subprocess.run([self.program, "validate-all"], stdin=subprocess.DEVNULL, stdout=sys.stderr, env=self.environment("monitor"), check=False)
        if done.returncode in OCF_HARD and done.returncode != 3:
            return "validate-all says %d" % done.returncode
        return None

    def seconds(self, verb):
        """How long an action may take."""
        return self.numbers[verb + "-timeout"] or OCF_START_TIMEOUT

    def words(self, verb):
        return [self.program, verb]

    def environment(self, verb):
        own = {"OCF_ROOT": AGENTS, "OCF_RA_VERSION_MAJOR": "1", "OCF_RA_VERSION_MINOR": "0", "OCF_RESOURCE_INSTANCE": self.name,
               "OCF_RESOURCE_TYPE": self.type, "OCF_RESOURCE_PROVIDER": self.provider, "OCF_RESKEY_CRM_meta_timeout": str(1000 * self.seconds(verb)),
               "PATH": "/usr/sbin:/usr/bin:/sbin:/bin", "LANG": "C.UTF-8", "HOME": "/root", "HA_LOGTAG": "quorumd-resource"}
        own.update(("OCF_RESKEY_" + key, value) for key, value in self.parameters.items())
        return own

    def outcome(self, verb, status, _text):
        """What the end of an action says, by its status."""
        if verb == "monitor" and status in OCF_RUNS or status == 0:
            return OK
        if verb == "monitor" and status == OCF_NOT_RUNNING:
            return UNKNOWN if self.is_held() else NOT_RUNNING
        return HARD if verb == "start" and status in OCF_HARD else BROKEN

    def is_held(self):
        """Whether a block device that is no longer mounted here is still in use, as by a mount in another name space."""
        device = self.parameters.get("device", "")
        try:
            if self.type == "Filesystem" and stat.S_ISBLK(os.stat(device).st_mode):
                os.close(os.open(device, os.O_RDONLY | os.O_EXCL))
        except OSError as error:
            return error.errno == errno.EBUSY
        return False


def numbers_of(name, words):
    """The numbers of a resource, which are taken out of its words: a key with a hyphen is none of the agent's."""
    numbers = dict(NUMBERS)
    for key in [key for key in words if "-" in key]:
        value = words.pop(key)
        if key not in NUMBERS or not re.fullmatch("[0-9]{1,9}", value) or (int(value) == 0 and key not in MAY_BE_0):
            raise Wrong("%s: %s = %s" % (name, key, value))
        numbers[key] = int(value)
    return numbers


def resource_of(name, words):
    """The resource of a section."""
    if not re.fullmatch(r"[\w.@:+-]+", name, re.ASCII):
        raise Wrong("%s is no name of a resource: letters, digits and _ . @ : + -" % name)
    for key, value in words.items():
        if "\n" in value:
            raise Wrong("%s: %s has more than one line" % (name, key))
    agent = words.pop("agent", "")
    numbers = numbers_of(name, words)
    if agent.startswith("ocf:"):
        return Agent(name, agent, numbers, words)
    if agent.startswith("systemd:"):
        return Unit(name, agent[len("systemd:"):], numbers, words)
    raise Wrong("%s: agent = %s" % (name, agent))


def resources_of(conf):
    """What the file names, in its order."""
    parser = configparser.ConfigParser(interpolation=None, strict=True, delimiters=("=",), comment_prefixes=("#",), default_section="")
    parser.optionxform = str
    try:
        with open(conf) as file:
            parser.read_file(file)
    except OSError as error:
        raise Wrong("%s: %s" % (conf, error.strerror)) from None
    except UnicodeDecodeError:
        raise Wrong("%s is no text" % conf) from None
    except configparser.Error as error:
        raise Wrong(str(error)) from None
    found = [resource_of(name, dict(parser[name])) for name in parser.sections()]
    if not found:
        raise Wrong("%s names no resource" % conf)
    if len(found) > 16:
        raise Wrong("%s: %s is one resource too many: a group has at most 16" % (conf, found[16].name))
    return found


def agent_words():
    """What agent.env says that the node of this host starts and stops: `group`, `service UNIT`, or `none`."""
    words = ["group"]
    try:
        with open(AGENT_ENV) as file:
            for line in file:
                if line.startswith("AGENT="):
                    words = line[len("AGENT="):].strip().strip("\"'").split()
    except FileNotFoundError:
        pass
    return words


def resources():
    """The resources of this host: those of the file, or the one unit that agent.env names, or none: the host of a witness."""
    words = agent_words()
    if words[:1] == ["service"] and len(words) == 2:
        return [Unit(words[1], words[1], dict(NUMBERS))]
    if words == ["none"]:
        return []
    if words != ["group"]:
        raise Wrong("%s: AGENT=%s is none of `group`, `service UNIT` and `none`" % (AGENT_ENV, " ".join(words)))
    return resources_of(CONF)


def session_of(pid):
    """The session of a process and when it began, as /proc says it; None where it is gone."""
    try:
        with open("/proc/%d/stat" % pid) as file:
            fields = file.read().rpartition(")")[2].split()
    except OSError:
        return None
    return (int(fields[3]), int(fields[19])) if fields[0] != "Z" else None


def end_session(session):
    """Ends all processes of a session by force."""
    for name in os.listdir("/proc"):
        found = session_of(int(name)) if name.isdigit() else None
        if found and found[0] == session:
            try:
                os.kill(int(name), signal.SIGKILL)
            except OSError:
                pass
