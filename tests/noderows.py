"""The rows of runs of a node in tests/program/qn_tests/stdin. Recorded runs are played again by the second program (tests/noderuns.py), each over its own
outside: what the node says and does is of the rule of this release, whatever the record has."""
import hashlib
import pathlib
from collections import Counter, namedtuple

from nodebytes import settings_of
from nodeoutsides import Again, NthFails, Quiet, case_of, packets_in, ticks_in, words_of
from noderuns import Run, RunBefore
from nodescenes import cases_of, image_of

SCENES = pathlib.Path(__file__).resolve().parent / "rows" / "scenes-of-names.txt"

# The clock of the failing runs goes on to one more tick than that of the case forty-turns; then it stands.
NEXT_TICK = 18620

# A run of a table: its log, and how it ended.
Played = namedtuple("Played", "log end")


def table_rows(table):
    return [line.split("\t") for line in table.read_text().splitlines() if not line.startswith("#")]


def played(settings, words, outside, run=Run):
    end = run(settings_of(settings), words, outside).played()
    return Played(outside.log, end)


def again(case, run=Run):
    """The case as a node of this release makes it."""
    log, end = played(case.settings, case.words, Again(case), run)
    return case._replace(log=log, line=end.line, status=end.status)


def scenes():
    return list(cases_of(SCENES.read_text()))


def failing(case, number, run=Run):
    """The run of forty-turns in which the call of this number fails, 0: none."""
    return played(case.settings, case.words, NthFails(case.sectors, ticks_in(case.log) + [NEXT_TICK], packets_in(case.log), number), run)


def quiet(settings, words, run=Run):
    """The run of a node that hears nothing over a new image."""
    return played(settings, words_of(words), Quiet(image_of(settings_of(settings)), [], []), run)


def digest(log):
    return hashlib.sha256("".join(line + "\n" for line in log).encode()).hexdigest()


# ---- rows

def case_rows(case):
    """A case whose log the outside plays, and how it ends."""
    yield from [f"case {case.name}", settings_line(case.settings), words_line(case.words)]
    if case.name == "forty-turns":
        yield from (f"holds write {number} {data.hex()} ok" for number, data in case.sectors.items())
    yield from case.log
    yield f"ends {case.status} {case.line}"


def failing_rows(case):
    """Each call of forty-turns fails in turn, first none."""
    count = sum(line.split(" ")[0] not in ("now", "halt") for line in failing(case, 0).log)
    for number in range(count + 1):
        log, end = failing(case, number)
        yield f"fails {number} {len(log)} {digest(log)} {end.status} {end.line}"


def quiet_rows(table):
    for name, text, words, *_ in table_rows(table):
        settings = text.replace("\\n", "\n")
        log, end = quiet(settings, words)
        yield from [f"case {name}", settings_line(settings), words_line(words_of(words))]
        yield f"quiet {len(log)} {digest(log)} {end.status} {end.line}"


def settings_line(text):
    """A settings text in one line."""
    return "settings " + "|".join(text.splitlines()) + "|"


def words_line(words):
    """The words of a run in fixed order: id, turns, the turn from which on the node leaves, whether its boot is clean."""
    leave = "-" if words.leave is None else words.leave
    return f"words {words.ident} {words.turns} {leave} {'yes' if words.is_clean_start else 'no'}"


# ---- what the rule of this release changes

def as_recorded(folder):
    """Whether a node of the release before makes the recorded runs, call by call: a line for each kind of run."""
    cases = [case_of(path) for path in sorted((folder / "cases").iterdir())]
    same = sum(again(case, RunBefore) == case for case in cases)
    yield f"cases {len(cases)} as recorded {same}"
    forty = case_of(folder / "cases" / "forty-turns")
    rows = table_rows(folder / "failing.tsv")
    same = sum(row[1:] == row_of(failing(forty, int(row[0]), RunBefore)) for row in rows)
    yield f"failing {len(rows)} as recorded {same}"
    rows = table_rows(folder / "quiet.tsv")
    same = sum([row[5], row[6], *row[3:5]] == row_of(quiet(row[1].replace("\\n", "\n"), row[2], RunBefore)) for row in rows)
    yield f"quiet {len(rows)} as recorded {same}"


def row_of(run):
    return [str(len(run.log)), digest(run.log), run.end.line, str(run.end.status)]


def changed(folder):
    """How many of the recorded runs stay, and what changes in the others; then their calls by kind, before and now."""
    runs, before, now = Counter(), Counter(), Counter()
    for path in sorted((folder / "cases").iterdir()):
        case = case_of(path)
        later = again(case)
        runs[what_changed(case, later)] += 1
        before.update(map(kind_of_call, case.log))
        now.update(map(kind_of_call, later.log))
    yield from (f"runs {count} {what}" for what, count in runs.most_common())
    yield from (f"calls {kind} {before[kind]} {now[kind]}" for kind in sorted(before | now))


def what_changed(case, later):
    if later == case:
        return "as before"
    if later.line != case.line:
        return "with another end"
    if hellos_alone(later.log) == hellos_alone(case.log):
        return "with other Hellos alone"
    return "with other views" if numbers_alone(later.log) == numbers_alone(case.log) else "with other calls"


def hellos_alone(log):
    """A log without plain Hellos, and without what the others say of their sender."""
    return [line[:-7] + line[-3:] if kind_of_call(line) == "send 8" else line for line in log if kind_of_call(line) != "send 3"]


def numbers_alone(log):
    """A log without Hellos, and without the numbers of views in what is sent."""
    return [kind_of_call(line).replace("11", "4") if line.startswith("send") else line for line in log if kind_of_call(line) not in ("send 3", "send 8")]


def kind_of_call(line):
    words = line.split(" ")
    return "send %d" % int(words[2][4:6], 16) if words[0] == "send" else words[0]
