"""No lemma of the repository is stated twice: each statement stands once in the specs/ and proofs/ of its crates.

Two lemmas state the same where their types are the same text once the names that they bind are numbered in order, each other name
is the item that the file's `use` lines bring in, and spaces are left out; how a binder is written, (..) or {..}, counts. A lemma is
an item at the top of a file whose result is a fact: an equality, an order, a choice or a negation of facts; a record, a data type
or a definition that speaks of values (it takes some and gives a `Type`); several of which one is a fact; or, where a premise is a
fact, a type that the lemma takes. What has any other result is a definition. The kit's own lemmas are not read."""
import os
import pathlib
import re
import sys

TOP = pathlib.Path(os.environ["TOP"])
SIGNS_OF_FACTS = {"≡", "≢", "≤", "<", "≥", ">", "⊎", "¬", "⊥"}
VALUES_OF_KIT = {"std." + name for name in ("Bool", "List", "Option", "Result", "ℕ", "ℤ")}
TOKEN = re.compile(r"[(){},;→λ]|[^\s(){},;→λ]+?(?=\.?(?:[\s(){},;→λ]|$))")
USE = re.compile(r"(?m)^(?:pub )?use ([\w.-]+)(?:\.\{(.*)\}| as (\S+))?$")
SIGNATURE = re.compile(r"(?m)^(?:(?:abbrev|unfoldable) )?(?:pub )?([^\s(){},;]+) :(?=\s)(.*\n(?:[ \t].*\n)*)")
TYPE = re.compile(r"(?ms)^(?:pub )?(?:data|record) (\S+)(.*?) where$")


class Source:
    """A file: its signatures, its data types and records, and the item that each name in it stands for."""

    def __init__(self, path):
        self.path = path.relative_to(TOP)
        self.module = ".".join(["Rattle", *path.relative_to(TOP / "crates").with_suffix("").parts])
        text = re.sub(r"(?m)(^|\s)--.*", "", path.read_text())
        self.signatures = [(name, TOKEN.findall(given)) for name, given in SIGNATURE.findall(text)]
        self.types = [(name, TOKEN.findall(given)) for name, given in TYPE.findall(text)]
        self.items = dict(brought_in(text))
        for name, _ in self.signatures + self.types:
            self.items[name.strip("◌")] = "%s.%s" % (self.module, name)


def brought_in(text):
    """The names that the `use` lines of a file bring in, each with its item: one of std is known by its name alone."""
    for module, names, alias in USE.findall(text):
        if not names:
            yield alias or module.split(".")[-1], module
        for name in names.split(", ") if names else []:
            item, _, alias = name.partition(" as ")
            yield (alias or item).strip("◌"), "%s.%s" % ("std" if module.startswith("Rattle.std.") else module, item)


class Statement:
    """A type, read token by token: the items that it names, and numbers for the names that it binds."""

    def __init__(self, tokens, items):
        self.items, self.bound, self.count, self.text = items, {}, 0, []
        self.open = []  # for each open bracket: the names that it binds, what was bound before it, where its text begins
        while tokens:
            tokens = self.read(tokens[0], tokens[1:])

    def read(self, token, rest):
        """Takes a token, and gives what is left to read."""
        if token in ("(", "{"):
            names = names_before(":", rest)
            self.open.append((names, self.bound, len(self.text)))
            rest = rest[len(names):]
        elif token in (")", "}"):
            return self.close(token, rest)
        elif token == "λ" and rest[0] != "(":
            names = names_before(".", rest)
            self.bind(names)
            rest = rest[len(names):]
            token = "λ%d" % len(names)
        self.text.append(self.item(token))
        return rest

    def close(self, token, rest):
        """Ends a bracket. One that binds several names is written as one for each, and an arrow behind it says nothing."""
        names, self.bound, begin = self.open.pop()
        group = [*self.text[begin:], token]
        self.text[begin:] = group * (len(names) or 1)
        self.bind(names)
        return rest[1:] if rest[:1] == ["→"] else rest

    def bind(self, names):
        for name in names:
            self.bound = {**self.bound, name: "_%d" % self.count}
            self.count += 1

    def item(self, token):
        name, dot, field = token.partition(".")
        return self.bound.get(name, self.items.get(name, name)) + dot + field


def names_before(sign, tokens):
    """The names that stand before a sign; none where a bracket or an arrow comes first."""
    for at, token in enumerate(tokens):
        if token == sign:
            return tokens[:at]
        if token in "(){},;→":
            break
    return []


def parts_of(tokens, sign):
    """The parts of a type between the signs that stand in no bracket."""
    parts, depth = [[]], 0
    for token in tokens:
        depth += (token in "({") - (token in ")}")
        if token == sign and depth == 0:
            parts.append([])
        else:
            parts[-1].append(token)
    return parts


def speaks_of_values(tokens):
    """Whether what has these parameters and gives a `Type` takes a value, and not only types."""
    types = re.sub(r"[({] [^:(){}]+ : Type \d [)}](?: →)?|Type \d →", "", " ".join(tokens))
    return re.fullmatch(r"[ :]*Type \d", types) is None


def is_fact(tokens, items, relations):
    """Whether a type is one of facts, by its result; a type that it takes itself is one if a premise is."""
    *premises, result = parts_of(tokens, "→")
    if SIGNS_OF_FACTS & {*result}:
        return True
    heads = [next((token for token in part if token not in "({"), "") for part in parts_of(result, "×")]
    if len(heads) == 1 and heads[0] not in items:
        return any(is_fact(premise, items, relations) for premise in premises)
    return any(items.get(head, "") in relations for head in heads)


def follow(sources):
    """Names that a file brings in from one that brings them in itself, by `pub use`, stand for the same item."""
    homes = {"%s.%s" % (source.module, name): item for source in sources for name, item in source.items.items()}
    for source in sources:
        source.items = {name: homes.get(item, item) for name, item in source.items.items()}


def relations_of(sources):
    """The items whose types are facts: of the repository those that speak of values, and of std all but the types of values."""
    given = {item for source in sources for item in source.items.values() if item.startswith("std.")} - VALUES_OF_KIT
    own = [(source, name, tokens) for source in sources for name, tokens in source.types + source.signatures]
    return given | {source.items[name] for source, name, tokens in own if tokens[-2:-1] == ["Type"] and speaks_of_values(tokens)}


sources = [Source(path) for part in ("specs", "proofs") for path in sorted(TOP.glob("crates/*/%s/**/*.antt" % part))]
follow(sources)
relations = relations_of(sources)
stated = {}
for source in sources:
    for name, tokens in source.signatures:
        if tokens[-2:-1] != ["Type"] and is_fact(tokens, source.items, relations):
            text = " ".join(Statement(tokens, source.items).text)
            stated.setdefault(text, []).append("`%s` of %s" % (name, source.path))
twice = [places for places in stated.values() if len(places) > 1]
for places in twice:
    print("stated twice: " + ", ".join(places))
sys.exit(1 if twice or not stated else 0)
