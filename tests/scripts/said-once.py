"""Each fact has one home: over all pairs of pages and manuals, there are fewer maximal runs of nine or more equal words than a limit, in lower case and without
punctuation. Examples are left out: what a program writes is the same wherever it is shown. The operator's book says on its first page that it is all that one
needs: it has at most 20,000 words, and none of its pages more than 4,500. With a word, each run is shown."""
import os
import pathlib
import re
import sys

TOP = pathlib.Path(os.environ["TOP"])
RUN, EQUAL = 9, 150  # a run has so many words at least; there are fewer runs than that
BOOK, PAGE = 20000, 4500
DEVELOPERS = [TOP / "docs" / name for name in ("ARCHITECTURE.md", "DECISIONS.md", "PROVED.md")]  # of the developer's book, where one looks for them
OPERATORS = [TOP / "README.md", *(page for page in sorted(TOP.glob("docs/*.md")) if page not in DEVELOPERS)]
READ = [*OPERATORS, *DEVELOPERS, *sorted(TOP.glob("docs/dev/*.md")), TOP / "bench" / "README.md", TOP / "contrib" / "README.md", *sorted(TOP.glob("man/*.[18]"))]


def words_of(page):
    """The words of a page: letters, digits and what stands inside a word, in lower case. A manual is read without the names of its macros, a link without its
    target."""
    text = page.read_text()
    if page.suffix == ".md":
        text = re.sub(r"(?ms)^ *```.*?^ *```|\]\([^)]*\)", " ", text)
    else:
        text = re.sub(r"(?m)^\.(Bl .*|\w+)| (Ns|Ar|Fl|Ql|Pa|Xr|Ev|Cm)\b", "", re.sub(r"(?ms)^\.Bd.*?^\.Ed", " ", text))
    return re.findall(r"[a-z0-9]+(?:[._'-][a-z0-9]+)*", text.lower())


def places_of(words):
    """Where each row of RUN words begins."""
    places = {}
    for at in range(len(words) - RUN + 1):
        places.setdefault(tuple(words[at:at + RUN]), []).append(at)
    return places


def longest(first, second, at, other):
    """How many words from these two places on are equal."""
    length = RUN
    while at + length < len(first) and other + length < len(second) and first[at + length] == second[other + length]:
        length += 1
    return length


def runs_of(first, second, places):
    """The maximal runs of the first page that the second one has, too: of overlapping ones the one that begins first."""
    at = 0
    while at <= len(first) - RUN:
        found = places.get(tuple(first[at:at + RUN]), [])
        length = max((longest(first, second, at, other) for other in found), default=0)
        if length:
            yield " ".join(first[at:at + length])
        at += length or 1


def equal_runs():
    """The runs of all pairs of pages, each with the names of the two."""
    words = {page: words_of(page) for page in READ}
    places = {page: places_of(words[page]) for page in READ}
    for number, first in enumerate(READ):
        for second in READ[number + 1:]:
            for run in runs_of(words[first], words[second], places[second]):
                yield str(first.relative_to(TOP)), str(second.relative_to(TOP)), run


def main():
    runs = list(equal_runs())
    count = len(runs)
    sizes = {page: len(page.read_text().split()) for page in OPERATORS}
    wrong = ["%s has %d words, and a page of the operator's book at most %d" % (page.relative_to(TOP), size, PAGE) for page, size in sizes.items() if size > PAGE]
    if sum(sizes.values()) > BOOK:
        wrong.append("the operator's book has %d words, and may have %d" % (sum(sizes.values()), BOOK))
    if count >= EQUAL:
        wrong.append("%d runs of %d words or more stand in two pages, and %d are too many" % (count, RUN, EQUAL))
    if count >= EQUAL or sys.argv[1:]:
        wrong += ["%s and %s: %s" % run for run in runs]
    print("\n".join(wrong))
    if sys.argv[1:]:
        print(count, sum(sizes.values()), {str(page.relative_to(TOP)): size for page, size in sizes.items()})
    sys.exit(1 if wrong and not sys.argv[1:] else 0)


main()
