#!/usr/bin/env python3
"""Brings the definitions and lemmas of this repository to the spelling of today's Rattle.

usage: python3 tools/respell.py [--dry]      at the top of the repository, once, after port.py

Words are in snake case (`axisEntry` becomes `axis_entry`, `axisEntry-neg` becomes `axis_entry-neg`), a definition has no dash (`ends-length` becomes
`ends_length`), and a definition whose value is a type is in camel case (`Rule-core` becomes `RuleCore`). A lemma keeps its dashes.
What is renamed is what a file of specs/ declares, or one that stands beside the folders of proofs/, or what such a file declares as a field or a
constructor. Functions of src/, exported names, strings, inputs and outputs keep their names. Where a new name already stands in a file that has the old one,
the script says so, and renames nothing in that file's place: see SPECIAL.
"""
import collections
import glob
import re
import sys

# Names that the rule would let fall together with another, or that it does not reach.
SPECIAL = {
    "putsFrom": "PutsFrom",
}

# Lemmas that port.py gave the name that a definition now takes: where each is declared, its name there, and its new name.
LEMMAS = [
    ("filling/specs/CountLaws", "pairs_below", "pairs_from-length"),
    ("hpgl/specs/LastRefusal", "at_name", "recalls-at_name"),
    ("numerals/specs/RunLaws", "counts_whole", "counts_whole-parts"),
    ("reader/specs/InsideLaws", "by_mode", "tells-by_mode"),
    ("stretches/specs/StretchLaws", "by_mode", "passes-by_mode"),
    ("wellformed/specs/PartLaws", "box_of", "box_sound-of"),
    ("wellformed/specs/PartLaws", "numbers_of", "numbers_sound-of"),
    ("wellformed/specs/RowTests", "below_of", "below_of-true"),
]

HEAD = re.compile(r"^[ \t]*((?:abbrev |unfoldable |pub )*)((?:[^\s(){}\[\],.;:\"`λ|]+ )+): ?(?!=)(.*)$", re.M)
TOKEN = re.compile(r"[^\s(){}\[\],.;\"`@]+")


def snake(word):
    word = re.sub(r"([a-z0-9])([A-Z])", r"\1_\2", word)
    word = re.sub(r"([A-Z]+)([A-Z][a-z])", r"\1_\2", word)
    return word.lower() if re.search(r"[A-Z]", word) else word


def files():
    found = glob.glob("crates/*/specs/*.antt") + glob.glob("crates/*/proofs/**/*.antt", recursive=True)
    return sorted(f for f in found if "/out/" not in f)


def declares(path):
    """Whether the names of this file are to be renamed: a function's own answers are named by its goals."""
    return "/specs/" in path or re.search(r"/proofs/[^/]+\.antt$", path)


def is_camel(name):
    return re.search(r"[a-z0-9][A-Z]", name) and not name[0].isupper()


def table():
    new = {}
    for path in files():
        with open(path, encoding="utf-8") as f:
            text = f.read()
        for marks, names, rest in HEAD.findall(text):
            for name in names.split():
                if name in ("pub", "abbrev", "unfoldable", "data", "record", "where", "let", "use", "--"):
                    continue
                is_definition = "abbrev" in marks or "unfoldable" in marks
                if is_camel(name) and declares(path):
                    new[name] = "-".join(snake(p) for p in name.split("-"))
                if is_definition and declares(path) and "-" in name and not name.startswith(("invariant-", "decreases-")) and re.match(r"^[A-Za-z0-9-]+$", name):
                    whole = new.get(name, name)
                    new[name] = "".join(p.capitalize() for p in whole.split("-")) if name[0].isupper() else whole.replace("-", "_")
        for name in re.findall(r"^\s*(?:pub )?(?:data|record) ([^\s:({]+)", text, re.M):
            new.pop(name, None)
    new.update(SPECIAL)
    return {a: b for a, b in new.items() if a != b}


def turned(text, new):
    return TOKEN.sub(lambda m: new.get(m.group(0), m.group(0)), text)


def outside_strings(text, new):
    parts = re.split(r'(b?"(?:[^"\\\n]|\\.)*")', text)
    return "".join(p if i % 2 else turned(p, new) for i, p in enumerate(parts))


def lemmas_first(dry):
    """A lemma's new name, where it is declared and where it is imported; not behind a dot, where a function of that name stands."""
    for home, old, new in LEMMAS:
        crate, _, module = home.split("/")
        imported = re.compile(r"^use Rattle\." + crate + r"\.specs\." + module + r"\.\{[^}]*(?<![\w-])" + old + r"(?![\w-])", re.M)
        for path in files():
            with open(path, encoding="utf-8") as f:
                text = f.read()
            if path == f"crates/{home}.antt" or imported.search(text):
                print("lemma", old, "is", new, "in", path)
                if not dry:
                    with open(path, "w", encoding="utf-8") as f:
                        f.write(re.sub(r"(?<![\w.`-])" + old + r"(?![\w'-])", new, text))


def main():
    dry = "--dry" in sys.argv
    lemmas_first(dry)
    new = table()
    back = collections.defaultdict(set)
    for a, b in new.items():
        back[b].add(a)
    for b, names in sorted(back.items()):
        if len(names) > 1:
            print("falls together:", b, sorted(names))
    every = files() + sorted(glob.glob("crates/*/src/**/*.rt", recursive=True))
    for path in every:
        with open(path, encoding="utf-8") as f:
            text = f.read()
        words = set(TOKEN.findall(text))
        for w in sorted(words):
            if w in new and new[w] in words:
                print("already there:", path, w, new[w])
        if not dry:
            after = outside_strings(text, new) if path.endswith(".rt") else turned(text, new)
            if after != text:
                with open(path, "w", encoding="utf-8") as f:
                    f.write(after)
    print(len(new), "names")
    if dry and "--list" in sys.argv:
        for a, b in sorted(new.items()):
            print(a, b)


if __name__ == "__main__":
    main()
