"""Each must-fail edit, in its crate or in tests/edits, names a file of its crate, and changes a line of it that stands there once, one for one."""
import os
import pathlib
import sys

TOP = pathlib.Path(os.environ["TOP"])
wrong = []


def changes_of(lines):
    """The texts of an edit, an old one and a new one each."""
    texts = [line.split(": ", 1) for line in lines if line.startswith(("old: ", "new: "))]
    names = [name for name, _ in texts]
    return [(old[1], new[1]) for old, new in zip(texts[::2], texts[1::2])] if names == ["old", "new"] * (len(names) // 2) else []


def look(edit, crate):
    lines = edit.read_text().splitlines()
    files = [line.removeprefix("file: ") for line in lines if line.startswith("file: ")]
    changes = changes_of(lines)
    if len(files) != 1 or not changes or not (TOP / "crates" / crate / files[0]).is_file():
        return "it names no file of its crate, or no texts"
    text = (TOP / "crates" / crate / files[0]).read_text()
    for old, new in changes:
        if text.count(old) != 1:
            return "this stands %d times in %s: %s" % (text.count(old), files[0], old)
        text = text.replace(old, new)
    return ""


edits = [(path, path.parent.parent.name) for path in TOP.glob("crates/*/must-fail/*.edit")]
edits += [(path, path.parent.name) for path in TOP.glob("tests/edits/*/*.edit")]
for path, crate in sorted(edits):
    fault = look(path, crate)
    if fault:
        wrong.append("%s: %s" % (path.relative_to(TOP), fault))
print("\n".join(wrong))
sys.exit(1 if wrong or len(edits) < 40 else 0)
