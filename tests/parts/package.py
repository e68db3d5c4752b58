"""For tests/scripts/package.sh and the scene `pages` of tests/hosts: package.py FOLDER PAGE.. runs the examples of these pages where the package has what a
clone has at its top."""
import os
import pathlib
import re
import shutil
import subprocess
import sys
import tempfile

NEW_FOLDER = 'cd "$(mktemp -d)" && ln -s "$OLDPWD"/* .'
TOOLS = ("jq", "xxd", "flock")
LEAST = 1  # commands of a page


def examples_of(page):
    """The commands of a page, each with what it writes."""
    for block in re.findall(r"(?ms)^```console\n(.*?)^```$", page.read_text()):
        yield from re.findall(r"(?m)^\$ (.*)\n((?:(?!\$ ).*\n)*)", block)


def new_folder(top):
    folder = pathlib.Path(tempfile.mkdtemp(dir="."))
    for there in top.iterdir():
        (folder / there.name).symlink_to(there)
    return folder


def try_page(top, page):
    """How many commands of the page were run."""
    ran, folder = 0, top
    for command, wanted in examples_of(top / page):
        if command == NEW_FOLDER:
            folder = new_folder(top)
            continue
        missing = [tool for tool in TOOLS if re.search(r"\b%s\b" % tool, command) and not shutil.which(tool)]
        if missing:
            print("skipped: %s: not installed: %s, for: %s and what comes after it" % (page, missing[0], command))
            return max(ran, LEAST)
        said = subprocess.run(["bash", "-c", command], cwd=folder, stdout=subprocess.PIPE, stderr=subprocess.STDOUT, text=True).stdout
        ran += 1
        if said != wanted:
            sys.exit("%s: %s: wanted %s, got %s" % (page, command, wanted, said))
    return ran


def main():
    top = pathlib.Path(os.path.abspath(sys.argv[1]))
    for page in sys.argv[2:]:
        if try_page(top, page) < LEAST:
            sys.exit("%s: fewer commands than %d" % (page, LEAST))


main()
