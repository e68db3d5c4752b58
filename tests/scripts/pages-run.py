"""The blocks of README.md and of each page of docs/, bench/, contrib/ and examples/. The word after ``` says what a block is:

  console          lines `$ COMMAND`, each with what it writes after it; a page's commands run one after the other in one folder
  console not-run  commands of whoever changes the program: no call of `quorumd`, and each of them begins with a word that exists
  conf             a settings text, which is taken as the head of a replay
  schedule, trace  a schedule, and after it the trace that `replay` writes of it
  file PATH        a file of a machine, which the examples after it have beside them under its last name; a lab writes it at its path
  run NAME         commands that a lab takes from the page and runs on its machines (tests/hosts/page.sh)
  text             no command

And what has one place stands there alone: the table of conditions, the exit statuses, the rule of safe times. The manual page is read alone, so it has
the conditions and the statuses too, and they are those of the pages. What `quorumctl status` can say, docs/NIGHT.md says what to do about. Each link
leads somewhere, and no cell of a table is a paragraph."""
import os
import pathlib
import re
import shutil
import subprocess
import sys

TOP = pathlib.Path(os.environ["TOP"])
PAGES = sorted([TOP / "README.md", *TOP.glob("docs/**/*.md"), *TOP.glob("bench/*.md"), *TOP.glob("contrib/*.md"),
                *TOP.glob("examples/**/*.md")])
# tools that a machine may lack, and the Debian package of each
PACKAGES = {"jq": "jq", "xxd": "xxd", "flock": "util-linux"}
# how a page begins whose commands make files: the folder of a page is such a one
NEW_FOLDER = 'cd "$(mktemp -d)" && ln -s "$OLDPWD"/* .'
# what a clone has at its top and the package in /usr/share/quorumd: the examples of all pages but those for whoever changes the program use nothing else
PACKED = ("README.md", "contrib", "docs", "examples", "lib")
OF_SOURCES = {"docs/ARCHITECTURE.md", "docs/dev/CHANGING.md", "docs/dev/PACKETS.md", "docs/PROVED.md", "bench/README.md"}
wrong = []


def blocks_of(page):
    """The blocks of a page: the line where each begins, what it is, and its lines."""
    found, inside = [], None
    for number, line in enumerate(page.read_text().splitlines(), 1):
        if line.startswith("```"):
            if inside is None:
                inside = (number, line[3:].strip(), [])
            else:
                found.append(inside)
                inside = None
        elif inside is not None:
            inside[2].append(line)
    return found


def commands_of(lines):
    """The commands of a console block, each with what it is to write."""
    commands = []
    for line in lines:
        if line.startswith("$ "):
            commands.append((line[2:], []))
        elif commands:
            commands[-1][1].append(line)
    return commands


def missing_tool(command):
    """The package of a tool that the command needs and that is not there."""
    words = re.findall(r"[\w-]+", command)
    return next((PACKAGES[word] for word in words if word in PACKAGES and not shutil.which(word)), None)


def run(folder, command, text=""):
    """What a command writes, in the folder of its page."""
    path = "%s:%s" % ((folder / "bin").resolve(), os.environ["PATH"])
    done = subprocess.run(["bash", "-c", command], cwd=folder, input=text, stdout=subprocess.PIPE, stderr=subprocess.STDOUT, text=True,
                          env={**os.environ, "PATH": path})
    return done.stdout


def differs(place, command, got, wanted):
    if got != wanted:
        wrong.append("%s: %s\nwanted %s\ngot    %s" % (place, command, wanted, got))


def names_in(folder):
    return {path.name for path in folder.iterdir()}


def try_console(folder, place, lines, made):
    if not lines or not lines[0].startswith("$ "):
        wrong.append("%s: a console block begins with a line `$ COMMAND`" % place)
    for command, wanted in commands_of(lines):
        if command == NEW_FOLDER:
            continue
        package = missing_tool(command)
        if package:
            print("skipped: %s: not installed (Debian: %s), for: %s" % (place, package, command))
        else:
            differs(place, command, run(folder, command), "".join(line + "\n" for line in wanted))
            made |= names_in(folder)


def try_unrun(place, lines):
    """Commands that are not run: of the kit and of this repository, and not of the program."""
    for line in lines:
        words = line.split("#")[0].split()
        if re.search(r"bin/quorumd|\$ ", line):
            wrong.append("%s: %s: a call of the program is run" % (place, line))
        elif words and not ((TOP / words[0]).is_file() or words[0] in ("apt", "cd", "git", "rt", "source", "man")):
            wrong.append("%s: %s: no such command" % (place, line))


def try_run_by_lab(place, kind, text):
    """Commands that a lab takes from the page and runs: bash reads them."""
    read = subprocess.run(["bash", "-n"], input=text, stderr=subprocess.PIPE, text=True)
    if read.returncode != 0:
        wrong.append("%s: %s: %s" % (place, kind, read.stderr))


def look_at_folder(page, made):
    """A page whose commands make files, also such as they take away again, begins in a new folder; but not one for a machine of its own."""
    first = next((lines[0][2:] for _, kind, lines in blocks_of(page) if kind == "console" and lines), "")
    if made and first != NEW_FOLDER and not files_of(page):
        wrong.append("%s makes %s, and does not begin with $ %s" % (page.relative_to(TOP), ", ".join(sorted(made)), NEW_FOLDER))


def try_page(page):
    folder = folder_of(page)
    before = names_in(folder) | files_of(page)
    look_at_folder(page, try_blocks(page, folder) - before)
    look_for_leftovers(page, folder)


def files_of(page):
    """The files of a machine that a page shows, which the one who reads it does not make."""
    return {pathlib.Path(kind).name for _, kind, _ in blocks_of(page) if kind.startswith("file ")}


def try_blocks(page, folder):
    """Tries the blocks of a page, and returns what stood in its folder after each command."""
    schedule, made = None, set()
    for number, kind, lines in blocks_of(page):
        place = "%s:%d" % (page.relative_to(TOP), number)
        text = "".join(line + "\n" for line in lines)
        if (kind == "trace") != (schedule is not None):
            wrong.append("%s: a schedule and its trace stand one after the other" % place)
        if kind == "console":
            try_console(folder, place, lines, made)
        elif kind == "console not-run":
            try_unrun(place, lines)
        elif kind == "conf":
            differs(place, "replay", run(folder, "bin/quorumd replay", text + "----\ntiming 5000 10000 1000 2000 1000\n"), "end 0\n")
        elif kind == "trace":
            differs(place, "replay", run(folder, "bin/quorumd replay", schedule or ""), text)
        elif kind.startswith("file "):
            (folder / pathlib.Path(kind).name).write_text(text)
        elif kind.startswith("run "):
            try_run_by_lab(place, kind, text)
        elif kind == "text":
            if re.search(r"(?m)^(\$ |bin/|quorumd [a-z]+ --|rt )", text):
                wrong.append("%s: a command in a block that is none" % place)
        elif kind != "schedule":
            wrong.append("%s: a block of no kind: %r" % (place, kind))
        schedule = text if kind == "schedule" else None
    return made


def folder_of(page):
    """A new folder in which what the page may use stands, with the programs in its bin."""
    folder = pathlib.Path("run", str(page.relative_to(TOP)).replace("/", "-"))
    (folder / "bin").mkdir(parents=True)
    programs = {"quorumd": os.environ["QUORUMD"], "quorumctl": os.environ["QUORUMCTL"]}
    for script in (TOP / "bin").iterdir():
        (folder / "bin" / script.name).symlink_to(programs.get(script.name, script))
    of_sources = str(page.relative_to(TOP)) in OF_SOURCES
    for there in TOP.iterdir():
        if there.name in PACKED or of_sources and there.name not in ("bin", "out") and not there.name.startswith("."):
            (folder / there.name).symlink_to(there)
    return folder


# what stands in one place: a pattern of its lines, and the page
PLACES = [
    (r"^\| `?unheard", "docs/NIGHT.md", "the table of conditions"),
    (r"^\| 16 \| `fault", "docs/dev/FORMATS.md", "the table of exit statuses"),
    (r"99 \*? ?\((M|msgwait) - 1\) >= 101", "docs/dev/SAFETY.md", "the rule of safe times"),
]


# the pages that a newcomer tries in a clone: their examples take away what they made
TIDY = ("README.md", "docs/README.md", "docs/dev/TRY.md", "docs/dev/STORIES.md", "docs/dev/LIVE.md", "docs/STATUS.md", "docs/HOST.md", "docs/IMAGE.md", "docs/MACHINES.md", "docs/NIGHT.md")


def look_for_leftovers(page, folder):
    left = {there.name for there in folder.iterdir() if not there.is_symlink()} - files_of(page) - {"bin"}
    if str(page.relative_to(TOP)) in TIDY and left:
        wrong.append("%s leaves %s" % (page.relative_to(TOP), " ".join(sorted(left))))


def look_at_places():
    for pattern, place, what in PLACES:
        found = [str(page.relative_to(TOP)) for page in PAGES for _ in re.findall("(?m)" + pattern, page.read_text())]
        if found != [place]:
            wrong.append("%s stands in %s, and not in %s alone" % (what, ", ".join(found) or "no page", place))


def look_at_links():
    """Each link to a file, and to a heading of a page, leads somewhere."""
    for page in PAGES:
        for link in re.findall(r"\]\(([^)]+)\)", re.sub(r"(?ms)^```.*?^```", "", page.read_text())):
            path, _, heading = link.partition("#")
            if "://" in link:
                continue
            target = (page.parent / path).resolve() if path else page
            if not target.exists():
                wrong.append("%s: no file for the link %s" % (page.relative_to(TOP), link))
            elif heading and heading not in headings_of(target):
                wrong.append("%s: no heading for the link %s" % (page.relative_to(TOP), link))


def headings_of(page):
    heads = re.findall(r"(?m)^#+ (.*)$", page.read_text())
    return {re.sub(r"[^\w -]", "", head.lower()).replace(" ", "-") for head in heads}


def look_at_examples():
    """Each page shows something that is run."""
    for page in PAGES:
        if page.name != "story.md" and not {"console", "schedule"} & {kind for _, kind, _ in blocks_of(page)}:
            wrong.append("%s has no example that is run" % page.relative_to(TOP))


# a cell of a table has at most so many letters: what is longer is a paragraph
CELL = 250


def look_at_cells():
    for page in [*PAGES, *TOP.glob("tests/*/README.md")]:
        place = str(page.relative_to(TOP))
        text = re.sub(r"(?ms)^```.*?^```", lambda block: "\n" * block[0].count("\n"), page.read_text())
        for number, line in enumerate(text.splitlines(), 1):
            cells = re.split(r"(?<!\\)\|", line) if line.startswith("|") else []
            if any(len(cell.strip()) > CELL for cell in cells):
                wrong.append("%s:%d: a cell of a table with more than %d letters" % (place, number, CELL))


CONDITIONS = ("down", "holding", "no-view", "wait-for-all", "not-quorate", "not-chosen", "held-by", "unheard", "unfenced", "clear")
# at three in the morning: each condition, phase and message, and each verdict with its reasons
SAID_AT_NIGHT = (
    "down", "holding", "no-view", "wait-for-all", "not-quorate:", "not-chosen:", "held-by:", "unheard:", "unfenced:N:unwritten", "unfenced:N:LEFT", "clear",
    "`off`", "`booting`", "`up`", "`leaving`", "`dying`", "`silent`", "`ended`",
    "mail reset", "crashdump", "mail exit", "mail damaged", "mail failed",
    "healthy: ", "degraded: ", "no owner", "unknown: no node answers", "owner not known: ", "tells nothing", "hands over to", "its group is", "nothing looks after its group",
    "does not see", "refused: another key or text", "not quorate", "is leaving", "is dying", "ended: ", "silent for", "is of another boot of this host", "TWO HOLDERS: ",
)


def text_of(place):
    return (TOP / place).read_text()


def look_at_conditions():
    """Each condition that blocks a start has its row, its place in the schema, and its item of the manual page."""
    places = {"docs/NIGHT.md": r"(?m)^\| `%s[`:]", "docs/status.schema.json": r"[\"(|^]%s[\"|):]", "man/quorumd.8": r"(?m)^\.It Ql %s\b"}
    for why in CONDITIONS:
        wrong.extend("%s has no %s" % (place, why) for place, pattern in places.items() if not re.search(pattern % why, text_of(place)))


def look_at_statuses():
    """The exit statuses of the manual page are those of docs/dev/FORMATS.md."""
    listed = re.findall(r"(?m)^\.It (\d\S*)", text_of("man/quorumd.8").split("\n.Sh EXIT STATUS\n")[1].split("\n.Sh ")[0])
    table = re.findall(r"(?m)^\| (\d\S*)", text_of("docs/dev/FORMATS.md").split("\n## Fault lines and statuses\n")[1].split("\n## ")[0])
    if listed != table or len(table) < 10:
        wrong.append("man/quorumd.8 has the statuses %s, and docs/dev/FORMATS.md %s" % (" ".join(listed), " ".join(table)))


def look_at_night():
    """docs/NIGHT.md says what to do about all that `quorumctl status` can say."""
    page = text_of("docs/NIGHT.md")
    wrong.extend("docs/NIGHT.md says nothing of %s" % word for word in SAID_AT_NIGHT if word not in page)


for page in PAGES:
    try_page(page)
look_at_conditions()
look_at_statuses()
look_at_night()
look_at_places()
look_at_links()
look_at_cells()
look_at_examples()
print("\n".join(wrong))
sys.exit(1 if wrong else 0)
