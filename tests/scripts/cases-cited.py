"""Each case says which sentence of which page it is of, and where its bytes come from: its row in the README.md of its group. No row is without a
case, and each sentence stands in its page."""
import os
import pathlib
import re
import sys

TOP = pathlib.Path(os.environ["TOP"])
ROW = re.compile(r"\| `([\w-]+)` \| (\w+) \| (.+) \| (two programs|the page) \|")


def words_of(text):
    """A text without the ends of its lines and of its cells."""
    return " ".join(text.replace("|", " ").split())


def wrong_of(group, pages):
    """What is wrong with the rows of a group."""
    cases = {path.parent.name for path in group.glob("*/stdout")}
    lines = [line for line in (group / "README.md").read_text().splitlines() if line.startswith("| `")]
    rows = [ROW.fullmatch(line) for line in lines]
    yield from ("%s: no row: %s" % (group.name, line) for line, row in zip(lines, rows) if not row)
    named = [row[1] for row in rows if row]
    yield from ("%s: %s has %d rows" % (group.name, case, named.count(case)) for case in sorted(cases | {*named}) if named.count(case) != (case in cases))
    for row in filter(None, rows):
        if words_of(row[3]) not in pages.get(row[2], ""):
            yield "%s: %s: %s.md does not say: %s" % (group.name, row[1], row[2], row[3])


pages = {page.stem: words_of(page.read_text()) for page in TOP.glob("docs/**/*.md")}
groups = [path for path in sorted((TOP / "tests" / "cases").iterdir()) if path.is_dir()]
wrong = [line for group in groups for line in wrong_of(group, pages)]
print("\n".join(wrong))
sys.exit(1 if wrong or len(groups) < 10 else 0)
