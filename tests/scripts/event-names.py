"""One name an event of a journal: the words of `EventName` in crates/qn_event are the rows of the table of LIVE.md, each once, and no page, manual,
example or script names another event."""
import re

from clusterfiles import same
from cratefiles import TOP

SOURCE = (TOP / "crates" / "qn_event" / "src" / "event_name.rt").read_text()
WORDS = re.findall(r'EventName::\w+ => "([a-z-]+)"', SOURCE)
OF_RECORDS = {"record-ends"}  # lib/told.py says it of a record that was cut off, and no node does

table = (TOP / "docs" / "dev" / "LIVE.md").read_text().split("\n| Event | Keys | Says | Level |\n")[1].split("\n\n")[0]
rows = [name for line in table.splitlines()[1:] for name in re.findall(r"`([a-z-]+)`", line.split("|")[1])]
same(sorted(rows), sorted(WORDS), "the events of LIVE.md")
same(len(set(WORDS)), len(WORDS), "two events of one name")

# what is said in a line: of a page, a manual, an example or a script
NAMED = re.compile(r"\bevent=([a-z][a-z-]*[a-z])")
FILES = [file for part in ("docs", "man", "examples", "contrib", "packaging", "bin", "lib") for file in sorted((TOP / part).rglob("*")) if file.is_file()]
for file in [TOP / "README.md", *FILES]:
    others = set(NAMED.findall(file.read_text(errors="replace"))) - {*WORDS} - OF_RECORDS
    same(others, set(), "events that no line has, in %s" % file.relative_to(TOP))

# what is drawn of journals, and what is worked out from records
drawn = (TOP / "lib" / "nodejournals.py").read_text()
compared = [*re.findall(r"line\.event == (\S+)", drawn), *re.findall(r"line\.event in (\([^)]*\))", drawn), re.search(r"ENDS = (\(.*\))", drawn)[1]]
told = (TOP / "lib" / "told.py").read_text()
said = [re.sub(r'"(yes|no)"', "", each) for each in re.findall(r"self\.say\((.*)\)", told)]
for text, of in [(" ".join(compared), "lib/nodejournals.py"), (" ".join(said), "lib/told.py")]:
    names = {*re.findall(r'"([a-z]+(?:-[a-z]+)*)"', text)}
    same((len(names) > 5, names - {*WORDS} - OF_RECORDS), (True, set()), "events of " + of)
