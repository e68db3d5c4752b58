"""The record of a run: a line of JSON for each test that came to an end, beside the page, so that an interrupted run goes on."""
import hashlib
import json
import os
from dataclasses import asdict, dataclass, field


@dataclass
class Outcome:
    """What came of a test on a host. `figures` has what was measured, by name."""
    test: str
    host: str
    verdict: str
    findings: list = field(default_factory=list)
    story: list = field(default_factory=list)
    figures: dict = field(default_factory=dict)
    when: str = ""

    def key(self):
        return self.test, self.host


def digest_of(plan, names, all_facts):
    """What has to be the same for a run to go on: the plan, the tests that are wanted, and the programs and texts of the hosts."""
    said = [plan.text, " ".join(names)] + ["%s %s %s %s %s" % (facts.host, facts.one("package"), facts.one("program"), facts.one("text:corosync.conf"), facts.one("kernel")) for facts in all_facts]
    return hashlib.sha256("\n".join(said).encode()).hexdigest()[:16]


class Record:
    """The outcomes of a run, in the file `path`."""

    def __init__(self, path, digest, begun):
        self.path, self.digest, self.begun, self.outcomes = path, digest, begun, []

    def go_on(self):
        """Takes what an earlier run came to; whether there is one of the same plan, programs and texts that came to no end, else why it is not gone on with."""
        try:
            with open(self.path, encoding="utf-8") as file:
                head, *lines = [json.loads(line) for line in file]
        except FileNotFoundError:
            return None
        except (OSError, ValueError):
            return "begins anew: %s is no record" % self.path
        if head.get("digest") != self.digest:
            return "begins anew: the plan, the tests, a program or a text are others than in the run of %s" % head.get("begun")
        if any("whole" in line for line in lines):
            return "begins anew: the run of %s came to its end" % head.get("begun")
        self.begun = head["begun"]
        self.outcomes = [Outcome(**line) for line in lines]
        return "goes on with the run of %s: %d outcomes stand" % (self.begun, len(self.outcomes))

    def write(self, is_whole=False):
        """Writes the record, whole or not at all."""
        lines = [{"digest": self.digest, "begun": self.begun}] + [asdict(outcome) for outcome in self.outcomes] + [{"whole": True}] * is_whole
        written(self.path, "".join(json.dumps(line, sort_keys=True) + "\n" for line in lines))

    def add(self, outcome):
        self.outcomes = [other for other in self.outcomes if other.key() != outcome.key()] + [outcome]
        self.write()

    def done(self, test, host):
        """Whether that was judged already."""
        return any(outcome.key() == (test, host) and outcome.verdict != "not judged" for outcome in self.outcomes)


def written(path, text):
    """Writes a file whole or not at all."""
    with open(path + ".new", "w", encoding="utf-8") as file:
        file.write(text)
        file.flush()
        os.fsync(file.fileno())
    os.replace(path + ".new", path)
