"""Each row of the table of walks in docs/dev/CHANGING.md leads where it says: the page has the heading, the definitions and functions stand in
their files, the clauses of the code cite a definition of the row, the proof of the law cites the file that it is by, and the tests are there."""
import os
import pathlib
import re
import sys

TOP = pathlib.Path(os.environ["TOP"])
PLACE = re.compile(r"`(\w+)` in `(crates/[^`]+)`")
PAGE = re.compile(r"\]\(((?:\.\./)?\w+\.md)#([\w-]+)\)")
wrong = []


def expect(holds, what):
    if not holds:
        wrong.append("docs/dev/CHANGING.md: " + what)


def rows():
    table = (TOP / "docs" / "dev" / "CHANGING.md").read_text().split("\n## Four walks\n")[1].split("\n## ")[0]
    return [[cell.strip() for cell in line.strip("|").split(" | ")] for line in table.splitlines() if line.startswith("| [")]


def text(path):
    expect((TOP / path).exists(), "%s is not there" % path)
    return (TOP / path).read_text() if (TOP / path).is_file() else ""


def anchors(page):
    titles = re.findall(r"^#+ (.*)$", text("docs/dev/" + page), re.M)
    return {re.sub(r"[^\w -]", "", title.lower()).replace(" ", "-") for title in titles}


def clauses(source, name):
    """What stands between the name of a function and its body."""
    after = source.split("fn %s(" % name, 1)
    return re.split(r"^ *\{", after[1], maxsplit=1, flags=re.M)[0] if len(after) == 2 else ""


def look_at_rule(cell):
    for page, anchor in PAGE.findall(cell):
        expect(anchor in anchors(page), "docs/dev/%s has no heading %s" % (page, anchor))


def look_at_definitions(cell):
    for name, path in PLACE.findall(cell):
        expect(re.search(r"^(\w+ )?pub %s :" % name, text(path), re.M), "%s is not defined in %s" % (name, path))


def look_at_code(cell, names):
    for name, path in PLACE.findall(cell):
        cited = clauses(text(path), name)
        expect(any(re.search(r"\b%s\b" % other, cited) for other in names), "%s in %s cites no definition of its row" % (name, path))


def look_at_proof(cell):
    (name, path), by = PLACE.findall(cell)[0], re.search(r"by `(crates/[^`]+)`", cell)[1]
    expect("fn %s(" % name in text(path), "%s is not in %s" % (name, path))
    text(by)
    crate, module = by.split("/")[1], pathlib.Path(by).stem
    answers = [file.read_text() for file in (TOP / "crates" / crate / "proofs").rglob("%s/*.antt" % name)]
    expect(any("Rattle.%s.proofs.%s." % (crate, module) in answer for answer in answers), "the proof of %s does not cite %s" % (name, by))


def look_at_tests(cell):
    for path in re.findall(r"`([^`]+)`", cell):
        text(path)


walks = rows()
expect(len(walks) == 4, "%d walks, not four" % len(walks))
for rule, definitions, code, proof, tests in walks:
    look_at_rule(rule)
    look_at_definitions(definitions)
    look_at_code(code, [name for name, _ in PLACE.findall(definitions)])
    look_at_proof(proof)
    look_at_tests(tests)
print("\n".join(dict.fromkeys(wrong)))
sys.exit(1 if wrong else 0)
