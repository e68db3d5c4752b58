"""No crate cites the proofs of another one, and each names every library of its line in crates.txt. crates.txt stands in layers, with the lines of
tests/program/crates and simulator/crates behind them, each crate on crates that stand before it there; docs/ARCHITECTURE.md has the same layers with the
same crates, and what each stands on: a row names crates of its line, and the others of that line stand below those. What a layer says that it is never
on, no crate of it stands on, not even through other crates, but for those that it names. crates/README.md is that map in short: after the word --write
it is written."""
import re
import sys

from cratefiles import APART, LINES, TOP, files_of

LAYER = re.compile(r"# ([A-Z][\w ]*): (.*)")
NEVER = re.compile(r"; never on ([\w ,]+?)(?: but through ([\w ]+))?$")
MAP = """# The crates

For whoever opens this folder: which crate does what, from below upward. A crate stands on crates of its own layer and of those above it on this page.
[The map](../docs/ARCHITECTURE.md#layers-and-crates) says what each promises and what it stands on.

From a rule of a page to what says it and what does it:

| Looked for | Where it is |
|---|---|
| its definition | the page names it, or its crate; `grep -rn 'pub NAME :' crates/*/specs`. A word of the page, as *in dispute*, stands in the comment above it: `grep -rn 'in dispute' crates/qn_member/specs` |
| the code | `src/` of a crate that cites the definition in an `ensures`: `grep -rnw NAME crates/*/src` |
| the proof | `proofs/FILE/FUNCTION/` of that crate; without such a folder the check needed no help |
| a wrong edit that the check refuses | `tests/edits/` |
| a row from outside | `tests/rows`, `tests/cases` |

[Four walks](../docs/dev/CHANGING.md#four-walks) go that way, for one rule each of settings, quorum, safety and views. This page is written by
`PYTHONPATH=tests python3 tests/scripts/layers.py --write`."""
wrong = []


def lines_of_crates():
    """The crates of crates.txt in their order, each with the libraries that it uses, of this repository and of the kit."""
    lines = [line.split("#")[0].strip() for line in LINES]
    return {line.split(":")[0].split()[0]: {*line.split(":")[1].split()} for line in lines if line}


def layers_of_crates():
    """The layers of crates.txt, after its first line: of each its name, what it speaks of, and its crates."""
    layers = []
    for line in LINES[1:]:
        named = LAYER.fullmatch(line)
        if named:
            layers.append((named[1], named[2], []))
        elif line:
            layers[-1][2].append(line.split(":")[0])
    return layers


def layers_of_page():
    """The layers of the page: of each its name, what it speaks of, and its crates, each with the cells of its row."""
    part = (TOP / "docs" / "ARCHITECTURE.md").read_text().split("\n## Layers and crates\n")[1].split("\n### Crates with one user\n")[0]
    layers = []
    for text in part.split("\n### ")[1:]:
        rows = [[cell.strip() for cell in line.strip("|").split("|")] for line in text.splitlines() if line.startswith("| `")]
        of = re.search(r"^Speaks of (.*)\.$", text, re.M)
        crates = {row[0].strip("`"): row for row in rows}
        layers.append((text.splitlines()[0], of[1] if of else "", crates))
    return layers


def below(crates, uses):
    """These crates and all that they stand on."""
    found = set(crates)
    for crate in crates:
        found |= below(uses[crate], uses)
    return found


def look_at_layers(page):
    if [(name, of, [*crates]) for name, of, crates in page] != layers_of_crates():
        for there, here in zip(layers_of_crates(), page):
            if there != (here[0], here[1], [*here[2]]):
                wrong.append("docs/ARCHITECTURE.md has the layer %s (%s) with %s, and crates.txt %s (%s) with %s" % (
                    here[0], here[1], " ".join(here[2]), there[0], there[1], " ".join(there[2])))
        wrong.append("the layers of crates.txt and of docs/ARCHITECTURE.md are not the same ones")


def through(crate, uses, passed):
    """What a crate stands on, each with the crates that it is reached through; nothing is looked at through those that are passed."""
    found = {}
    for other in sorted(uses[crate] - passed):
        found.setdefault(other, crate)
        for below_it, by in through(other, uses, passed).items():
            found.setdefault(below_it, by)
    return found


def look_at_never(uses):
    layers = layers_of_crates()
    of = {crate: name for name, _, crates in layers for crate in crates}
    names = [name for name, _, _ in layers]
    for name, speaks, crates in layers:
        said = NEVER.search(speaks)
        never = [layer.strip() for layer in said[1].split(",")] if said else []
        passed = {*said[2].split()} if said and said[2] else set()
        for layer in never:
            if layer not in names[:names.index(name)]:
                wrong.append("crates.txt: %s is never on %s, which is no layer before it" % (name, layer))
        for crate in sorted(passed - of.keys()):
            wrong.append("crates.txt: %s goes through %s, which is no crate" % (name, crate))
        for crate in crates:
            for other, by in through(crate, uses, passed).items():
                if of[other] in never and of[by] not in never:
                    wrong.append("%s stands on %s%s: %s is never on %s" % (crate, other, "" if by == crate else " through " + by, name, of[other]))
        for other in sorted(passed):
            if not any(other in uses[crate] for crate in crates):
                wrong.append("crates.txt: no crate of %s stands on %s" % (name, other))


def look_at_order(uses):
    before = set()
    for crate, used in uses.items():
        for other in sorted(used - before):
            wrong.append("crates.txt has %s before %s, which it stands on" % (crate, other))
        before.add(crate)


def look_at_rows(uses, rows):
    for crate in uses.keys() & rows.keys():
        named = set(re.findall(r"`(\w+)`", rows[crate][-1]))
        for other in sorted(named - uses[crate]):
            wrong.append("docs/ARCHITECTURE.md says that %s stands on %s, and crates.txt does not" % (crate, other))
        for other in sorted(uses[crate] - below(named & uses.keys(), uses)):
            wrong.append("docs/ARCHITECTURE.md does not say that %s stands on %s" % (crate, other))


def sources_of(crate):
    """The files of a crate that a check reads, with their texts."""
    return {file: file.read_text() for file in files_of(crate)}


def look_at_sources(libraries):
    cited = re.compile(r"\b(%s)(?:\.|::)proofs\b" % "|".join(libraries))
    for crate, used in libraries.items():
        sources = sources_of(crate)
        words = {word for text in sources.values() for word in re.findall(r"\w+", text)}
        for library in sorted(used - words):
            wrong.append("crates.txt says that %s uses %s, and no file of it does" % (crate, library))
        for file, text in sources.items():
            for number, line in enumerate(text.splitlines(), 1):
                for other in sorted({*cited.findall(line)} - {crate}):
                    wrong.append("%s:%d cites the proofs of %s" % (file.relative_to(TOP), number, other))


def link_to(crate):
    """The folder of a crate, from crates/."""
    return next(("../%s/%s" % (folder, crate) for folder in APART if (TOP / folder / crate).exists()), crate)


def map_of(page):
    """The text of crates/README.md: the crates by layer, each with what it is for."""
    lines = [MAP]
    for name, of, crates in page:
        lines += ["\n## %s\n\nSpeaks of %s.\n\n| Crate | What it is for |\n|---|---|" % (name, of)]
        lines += ["| [`%s`](%s) | %s |" % (crate, link_to(crate), row[1]) for crate, row in crates.items()]
    return "\n".join(lines) + "\n"


def look_at_map(page):
    file = TOP / "crates" / "README.md"
    if "--write" in sys.argv[1:]:
        file.write_text(map_of(page))
    elif not file.exists() or file.read_text() != map_of(page):
        wrong.append("crates/README.md is not that of docs/ARCHITECTURE.md: layers.py --write writes it")


libraries = lines_of_crates()
own = {crate: used & libraries.keys() for crate, used in libraries.items()}
page = layers_of_page()
look_at_layers(page)
look_at_order(own)
look_at_never(own)
look_at_rows(own, {crate: row for _, _, crates in page for crate, row in crates.items()})
look_at_sources(libraries)
look_at_map(page)
print("\n".join(dict.fromkeys(wrong)))
sys.exit(1 if wrong else 0)
