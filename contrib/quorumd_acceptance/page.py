"""The page of a run, in Markdown."""
from .judge import NOT_JUDGED


def table(head, rows):
    """A table of Markdown."""
    return ["| %s |" % " | ".join(head), "|%s" % ("---|" * len(head))] + ["| %s |" % " | ".join(str(word) if word not in (None, "") else "-" for word in row) for row in rows] + [""]


def seconds(found):
    return "-" if found is None else "%.1f s" % found


def of_hosts(all_facts, record):
    """What each host is, and its watchdog's time by a real reset."""
    real = {}
    for outcome in record.outcomes:
        if outcome.test in ("watchdog", "hang") and "reset" in outcome.figures:
            real.setdefault(outcome.host, []).append(outcome.figures["reset"])
    rows = []
    for facts in all_facts:
        device = facts.one("watchdog") or ("none of the kernel" if facts.one("watchdog-is-none") else "-")
        said = ", ".join("%.1f s" % took for took in real.get(facts.host, []))
        rows.append([facts.host, facts.one("node"), facts.one("package"), facts.one("kernel"), device, facts.one("watchdog-seconds"), said or "not tried"])
    return table(["Host", "Node", "quorumd", "Kernel", "Watchdog", "Its time, by its driver", "and by a real reset"], rows)


def of_outcomes(record, left):
    """A row a test: those that were played, and those that were not."""
    rows = []
    for outcome in record.outcomes:
        figures = outcome.figures
        rows.append([outcome.test, outcome.host, outcome.verdict, seconds(figures.get("without_owner")), figures.get("acknowledged"), figures.get("lost"), seconds(figures.get("silence"))])
    rows += [[test, host, "%s: %s" % (NOT_JUDGED, why), "-", "-", "-", "-"] for test, host, why in left]
    return table(["Test", "On", "Verdict", "Without an owner", "Rows acknowledged", "Rows lost", "Longest time without a row"], rows)


def of_outcome(outcome):
    lines = ["## %s on %s: %s" % (outcome.test, outcome.host, outcome.verdict), "", "%s." % outcome.when, ""]
    return lines + ["- **%s**" % text for text in outcome.findings] + ["- %s" % text for text in outcome.story] + [""]


def page_of(title, all_facts, times, record, left, reds, notes, histories):
    """The page. `left` are tests that were not played: test, host and why; `histories` has what the journal of each host tells."""
    lines = ["# %s" % title, ""]
    if reds:
        lines += ["**No test was played.** What is red:", ""] + ["- **%s: %s**" % red for red in reds] + [""]
    lines += of_hosts(all_facts, record)
    if times:
        lines += ["Times of the image: watchdog %g s, msgwait %g s, loop %g s, read limit %g s, feed delay %g s; the longest take-over %.1f s and the start of the resources." % times, ""]
    lines += of_outcomes(record, left)
    lines += ["- %s" % note for note in notes] + [""] * bool(notes)
    for outcome in record.outcomes:
        lines += of_outcome(outcome)
    for host, text in histories:
        lines += ["## What the journal of %s tells" % host, "", "```text", text.rstrip() or "nothing", "```", ""]
    return "\n".join(lines).rstrip() + "\n"
