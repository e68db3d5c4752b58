"""docs/PROVED.md binds. Each name stands in the sources of its crate. A row about a command names clauses of `top`, and fields of the record of that command; a
row by crate public functions and types, and clauses of those very functions. And each function of the rows by crate runs: the program, its companion or a test
calls it, or it stands on another one of its row that they call."""
import functools
import re
import sys

from cratefiles import LINES, TOP, files_of

PAGE = (TOP / "docs" / "PROVED.md").read_text()
wrong = []


@functools.cache
def sources(crate, parts=("src", "specs")):
    return "\n".join(file.read_text() for file in files_of(crate, parts))


def rows(heading):
    """The rows of the table below a heading, as lists of cells."""
    part = PAGE.split("\n## %s\n" % heading)[1].split("\n## ")[0]
    lines = [line for line in part.splitlines() if line.startswith("| ") and not line.startswith(("| Words", "| Promise", "| Status", "| Crate"))]
    return [[cell.strip() for cell in line[1:-1].split("|")] for line in lines]


def is_there(text, name):
    """Whether a function, a type, a clause or a field of a record has that name there."""
    last = re.escape(name.split("::")[-1])
    return re.search(r"\b(fn|struct|enum|trait|type|ensures|requires|record|data) %s\b|^\s*pub %s :|^abbrev pub %s\b" % (last, last, last), text, re.M)


def look(crate, text, cell):
    for name in re.findall(r"`([\w:.]+)`", cell):
        known = name in ("requires", "specs") or name.startswith("qn_")
        if not known and not all(is_there(text, part) for part in name.split(".")):
            wrong.append("docs/PROVED.md names `%s`, which is not in crates/%s" % (name, crate))


def records_of(text):
    """The fields of each record of that text, and of each name that stands for one."""
    found = {}
    for record in re.finditer(r"(?m)^(?:pub )?record (\w+)\b(?:[^\n]*\n)*?[^\n]*\bwhere\n((?:  [^\n]*\n)*)", text):
        found[record[1]] = {field[1]: field[2] for field in re.finditer(r"(?m)^ {2,4}(?:pub )?(\w+) : (.*)$", record[2])}
    for name, record in re.findall(r"(?m)^(\w+) = (\w+)\b", text):
        if record in found:
            found.setdefault(name, found[record])
    return found


def look_at_field(records, name):
    """A name with a point: a record, and a field of that very record."""
    record, field = name.split(".")
    if field not in records.get(record, {}):
        wrong.append("docs/PROVED.md names `%s`, and %s has no such field" % (name, record))


def fields_of(records, names):
    """The fields of these records, and of the records that their fields are."""
    own = {field: kind for name in names for field, kind in records.get(name, {}).items()}
    return own.keys() | {field for kind in own.values() for field in records.get(kind.split()[0], {})}


def look_at_command(records, clauses, cells):
    """A row about a command: each name of its last cell is a clause of `top`, a record, a field of a record with that record, or a field of the row's own."""
    rows_own = fields_of(records, re.findall(r"`(\w+)`", cells[0]))
    for name in re.findall(r"`([\w.]+)`", cells[-1]):
        if "." in name:
            look_at_field(records, name)
        elif name not in rows_own | clauses | records.keys():
            wrong.append("docs/PROVED.md names `%s` of `%s`: no clause of `top`, and no field of that record" % (name, cells[0]))


@functools.cache
def contracts(text):
    """The clauses of the functions of each name: what stands between their heads and their bodies."""
    found, name = {}, ""
    for line in text.splitlines():
        head = re.search(r"\bfn (\w+)", line)
        clause = re.match(r" *(?:ensures|requires) (?:\* )?(\w+)", line)
        if head:
            name = head[1]
            found.setdefault(name, set())
        elif re.match(r" *\{", line):
            name = ""
        elif clause and name:
            found[name].add(clause[1])
    return found


@functools.cache
def public(text):
    """The functions that another crate can call: those that say so, and those of public traits and of what implements a trait."""
    found, is_of_trait = set(), False
    for line in text.splitlines():
        if re.match(r"\S", line):
            is_of_trait = bool(re.match(r"pub trait\b|impl\b.* for ", line))
        name = re.search(r"\bfn (\w+)", line)
        if name and (is_of_trait or "pub fn" in line):
            found.add(name[1])
    return found


def clauses_of(text, name):
    return contracts(text).get(name.split("::")[-1], set())


def look_at_commands():
    """The tables of the program and of its statuses, by the clauses of `top` and the records of the commands with their fields."""
    text = "\n".join(sources(crate) for crate in ("qn_top", "qn_running", "qn_arbitrating", "qn_commands"))
    records, clauses = records_of(text), clauses_of(sources("qn_top", ("src",)), "top")
    own, commands = "", set()
    for cells in rows("The program"):
        if len(cells) == 2:  # of all commands
            own = "`WritesTrace` `States` `Counts`"
        elif cells[1]:
            own = cells[1]
            commands |= set(re.findall(r"`([\w-]+)`", cells[0]))
        look_at_command(records, clauses | commands, [own, cells[-1]])
    for cells in rows("Exit statuses"):
        look_at_command(records, clauses, ["", cells[-1]])


look_at_commands()


def below(crate, libraries):
    """A crate and all that it stands on."""
    return {crate}.union(*(below(other, libraries) for other in libraries[crate]))


@functools.cache
def code(crate):
    """The code of a crate, without comments, imports and clauses."""
    text = re.sub(r"//.*", "", sources(crate, ("src",)))
    text = re.sub(r"(?m)^\s*(pub |ghost )*use [^;]*;", "", text)
    return re.sub(r"(?m)^ *(requires|ensures|ghost)\b.*\n(?: {12,}.*\n)*", "", text)


def calls(text, name, is_method):
    """Whether code calls that function or method, or hands it on."""
    last = re.escape(name.split("::")[-1])
    call = r"\.%s\(" % last if is_method else r"(?<![.\w])%s(::<[^>]*>)?\(|\(%s\)|, %s\)" % (last, last, last)
    return re.search(r"(?<!fn )(?:%s|\b%s\()" % (call, re.escape(name)), text)


def is_called(crates, name, is_method):
    """Whether a crate that runs calls that function of these crates: one that imports it, or of a method one that names its type."""
    known = r"\b%s\b" % name.split("::")[0]
    for other in running:
        text = sources(other, ("src",))
        imports = " ".join(found for crate in crates for found in re.findall(r"\b%s::[^;]*;" % crate, text))
        knows = other in crates or re.search(known, text if "::" in name else imports) or is_method and imports
        if knows and calls(code(other), name, is_method):
            return True
    return False


def body(text, name):
    """The code of the functions of that name."""
    last = re.escape(name.split("::")[-1])
    return "\n".join(found.group(0) for found in re.finditer(r"(?ms)^( *)(?:pub(?:\(\w+\))? )?fn %s\b.*?^\1\}" % last, text))


def look_at_use(crates, cell):
    """A law is used by the proofs; every other function of the cell runs."""
    own = "\n".join(code(crate) for crate in crates)
    method = {}
    for name in re.findall(r"`([\w:.]+)`", cell):
        found = re.search(r"\bfn %s\b(?:<[^(]*>)?\(\s*(&?(?:mut )?self)?" % re.escape(name.split("::")[-1]), own)
        if found:
            method[name] = bool(found.group(1))
    run = {name for name in method if "law_" in name or is_called(crates, name, method[name])}
    for name in method:
        if name not in run and not any(calls(body(own, name), other, method[other]) for other in run):
            wrong.append("docs/PROVED.md names `%s` of %s, which neither the program nor a test calls" % (name, crates[0]))


FIELDS = re.compile(r"the fields? ((?:`\w+`(?:, | and )?)+) of `(\w+)`")
INSIDE = ("qn_machine",)  # the edge: what holds inside it, and no crate above it cites


def look_at_clauses(crates, row):
    """Each function of the last cell is public, but for those that the row calls private and those inside the edge. A name behind the word `clause` is a clause of
    a function of the row, and a field one of the record that the cell names with it."""
    text = "\n".join(sources(crate, ("src",)) for crate in [*crates, "qn_io"])
    for names, record in FIELDS.findall(row[-1]):
        records = records_of("\n".join(sources(crate, ("specs",)) for crate in crates))
        for name in re.findall(r"`(\w+)`", names):
            look_at_field(records, record + "." + name)
    named, *said = re.split(r"\bclauses?\b", FIELDS.sub("", row[-1]), maxsplit=1)
    functions = [name for name in re.findall(r"`([\w:]+)`", named) if name.split("::")[-1] in contracts(text)]
    for name in functions:
        if not ("law_" in name or "private" in row[1] or crates[0] in INSIDE or name.split("::")[-1] in public(text)):
            wrong.append("docs/PROVED.md names `%s` of %s, which is not public" % (name, crates[0]))
    own = set().union(*(clauses_of(text, name) for name in re.findall(r"`([\w:]+)`", " ".join(row[1:]))))
    for name in re.findall(r"`(\w+)`", "".join(said)):
        if name not in own and name not in contracts(text):
            wrong.append("docs/PROVED.md names the clause `%s` of %s, which no function of its row has: %s" % (name, crates[0], row[-1]))


libraries = {}
for line in LINES:
    if line and not line.startswith("#"):
        crate, used = line.split(":")
        libraries[crate.split()[0]] = used.split()
libraries = {crate: [other for other in used if other in libraries] for crate, used in libraries.items()}
programs = ("quorumd", "quorumctl", "qn_tests", "qn_soak_nodes")
running = sorted(set().union(*(below(program, libraries) for program in programs)))

crates = []
for row in rows("Crate by crate"):
    crates = re.findall(r"`((?:qn_|quorum)\w+)`", row[0]) or crates
    look(crates[0], "\n".join(sources(crate) for crate in crates), row[-1])
    look_at_use(crates, row[-1])
    look_at_clauses(crates, row)

# every status of docs/dev/FORMATS.md has a row
formats = (TOP / "docs" / "dev" / "FORMATS.md").read_text().split("\n## Fault lines and statuses\n")[1].split("\n## ")[0]
for status in re.findall(r"(?m)^\| (\d+) \|", formats):
    if status not in [row[0] for row in rows("Exit statuses")]:
        wrong.append("docs/PROVED.md has no row for the status %s" % status)

print("\n".join(wrong))
sys.exit(1 if wrong else 0)
