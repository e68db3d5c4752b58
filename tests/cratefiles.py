"""For the scripts of this folder that read crates: the lines of crates.txt, with those of tests/program and simulator/ behind it, and the files of a
crate. In these two folders each file that a check reads ends in .txt besides."""
import os
import pathlib

TOP = pathlib.Path(os.environ.get("TOP", pathlib.Path(__file__).resolve().parents[1]))
APART = ("tests/program", "simulator")
LINES = [line for file in ("crates.txt", *(folder + "/crates" for folder in APART)) for line in (TOP / file).read_text().splitlines()]
READ = (".antt", ".rt")


def files_of(crate, parts=("src", "specs", "proofs")):
    """The files of a crate that a check reads, in these of its folders."""
    folders = [TOP / folder / crate / part for folder in ("crates", *APART) for part in parts]
    files = [file for folder in folders for file in folder.rglob("*")]
    return sorted(file for file in files if file.name.removesuffix(".txt").endswith(READ))
