"""What a scene of a lab has to keep to, for the judge of quorumd-acceptance. A file of bounds has a line a scene, in seconds from its fault:

    SCENE<tab>RESET<tab>OWNER<tab>OTHERS

when the first one is reset, when another one owns for the first time, and which others may be reset (`-`: none). FROM..TO are sums of
the image's times, W watchdog, M msgwait, L loop, R read limit, S feed delay, as `0.99M+2L`; `-` is not asked, `none` must not come. FROM..TO@N of an
owner counts from when N of them are back after the fault, and then the first one may own too. Lower bounds never grow with the load of the bed, which says how
many times as long as alone a fixed loop takes there. An upper one of an owner grows as much, since starts are work; one of a reset by LATE for each time,
since a device counts its own time: a bed that stands still only sees later what it did."""
import pathlib
import re
import sys

sys.path.insert(0, str(pathlib.Path(__file__).resolve().parents[1] / "contrib"))
from quorumd_acceptance.judge import ANY, FAILED, NO_OTHER, OTHER, Bound, Reset, Wanted, failed, judge, overlaps

PART = re.compile(r"([+-]?\d+(?:\.\d+)?|[+-]?(?=[WMLRS]))([WMLRS]?)")
LATE = 0.5  # seconds that a device is seen late for each time that the loop takes as long
OFTEN = Bound(0, None)  # what may be, and as often as it likes: a scene counts by itself where that matters


class Rules:
    """The bounds of the scenes of one file, by the image's times in milliseconds, on a bed that is so slow."""

    def __init__(self, path, times, slow):
        self.path, self.slow = path, slow
        self.seconds = dict(zip("WMLRS", (int(word) / 1000 for word in times.split(","))))

    def line_of(self, scene):
        """What the file says of a scene: RESET, OWNER and OTHERS; None where it says nothing."""
        lines = [line.split("\t") for line in self.path.read_text().splitlines() if not line.startswith("#")]
        return next((line[1:] for line in lines if line[0] == scene), None)

    def sum_of(self, text):
        """The sum of the parts of `0.99M+2L-0.5`: a number, one of the image's times, or so many of it."""
        parts = [(number if number.strip("+-") else number + "1", letter) for number, letter in PART.findall(text) if number or letter]
        return sum(float(number) * self.seconds.get(letter, 1) for number, letter in parts)

    def reset_of(self, text):
        """When the first one is to be reset, as RESET says it."""
        if text == "-":
            return Reset(Bound(None, None), times=OFTEN)
        least, most = (self.sum_of(part) for part in text.split(".."))
        return Reset(Bound(least, most + LATE * (self.slow - 1)), times=Bound(1, None))

    def start_of(self, text):
        """When another one is to own, as OWNER says it, and how many have to be back."""
        sums, _, seen = text.partition("@")
        least, most = (self.sum_of(part) for part in sums.split(".."))
        return Bound(least, most * self.slow), int(seen) if seen else None

    def wanted(self, scene, fault, first, name):
        """What a scene has to show whose fault is one of the host `first`; `name` is the prefix of a host that the file names by its rest."""
        reset, owner, others = self.line_of(scene)
        resets = {name + other: Reset(Bound(None, None), times=OFTEN) for other in others.split(",") if other != "-"}
        if reset != "none":
            resets[first] = self.reset_of(reset)
        if owner in ("-", "none"):
            return Wanted(fault, None if owner == "-" else NO_OTHER, resets, holder=first)
        start, seen = self.start_of(owner)
        return Wanted(fault, ANY if seen else OTHER, resets, start, seen=seen, holder=first)


def findings_of(evidence, rules, scene, faults, first, name=""):
    """What the judge finds: of a scene without rules that two owned at once, and of another one what else does not keep to them."""
    if rules is None or rules.line_of(scene) is None:
        return list(overlaps(evidence))
    if not faults:
        return [*overlaps(evidence), failed("the scene has no fault")]
    return judge(evidence, rules.wanted(scene, faults[0], first, name))


def line_of(finding):
    """A finding as a line of a lab."""
    if finding.text.startswith("TWO OWNERS"):
        return finding.text
    return ("OUT OF BOUNDS: " if finding.verdict == FAILED else "NOT JUDGED: ") + finding.text
