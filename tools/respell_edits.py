#!/usr/bin/env python3
"""Brings the text of the must-fail edits to the spelling of today's Rattle, after port.py and respell.py.

usage: python3 tools/respell_edits.py LANDED     at the top of the repository; LANDED is the commit that the edits were written for

A word of an edit takes the form that the same word has in today's files of specs/ and src/ (letters and digits are compared, in one case), and a field
follows its variable with no space and no brackets. An edit that then does not stand once in its file is printed, and is brought over by hand.
"""
import collections
import glob
import re
import subprocess
import sys

TOKEN = re.compile(r"[^\s(){}\[\],.;\"`@]+")


def plain(word):
    return re.sub(r"[_◌'′-]", "", word).lower()


def words_of(text):
    return collections.Counter(TOKEN.findall(text))


def landed(commit):
    listing = subprocess.run(["git", "ls-tree", "-r", "--name-only", commit, "crates"], capture_output=True, text=True, check=True).stdout.split()
    out = collections.Counter()
    for path in listing:
        if path.endswith((".antt", ".rt")) and ("/specs/" in path or "/src/" in path):
            out += words_of(subprocess.run(["git", "show", f"{commit}:{path}"], capture_output=True, text=True, check=True).stdout)
    return out


def today():
    out = collections.Counter()
    for path in glob.glob("crates/*/specs/*.antt") + glob.glob("crates/*/src/**/*.rt", recursive=True):
        with open(path, encoding="utf-8") as f:
            out += words_of(f.read())
    return out


def table(commit):
    old, new = landed(commit), today()
    forms = collections.defaultdict(list)
    for w in new:
        forms[plain(w)].append(w)
    turned = {}
    for w in old:
        if w not in new and plain(w) in forms:
            turned[w] = max(forms[plain(w)], key=lambda f: new[f])
    return turned


def turn(text, words):
    text = TOKEN.sub(lambda m: words.get(m.group(0), m.group(0)), text)
    text = re.sub(r"(?<=[\w)'}\]]) \.(?=[\w])", ".", text)
    text = re.sub(r"(?<=[\s(])\(([\w']+(?:\.[\w']+)+)\)", r"\1", text)
    return re.sub(r"Rattle·(\w+)(?:·specs)?\.specs\.", r"Rattle.\1.specs.", text)


def main():
    words = table(sys.argv[1])
    for path in sorted(glob.glob("crates/*/must-fail/*.edit")):
        with open(path, encoding="utf-8") as f:
            lines = f.read().splitlines()
        after = [turn(line[:5], {}) + turn(line[5:], words) if line.startswith(("old: ", "new: ")) else line for line in lines]
        with open(path, "w", encoding="utf-8") as f:
            f.write("\n".join(after) + "\n")
        where, text = None, ""
        for line in after:
            if line.startswith("file: "):
                where = path.split("must-fail/")[0] + line[6:].strip()
                with open(where, encoding="utf-8") as f:
                    text = f.read()
            elif line.startswith("old: "):
                n = text.count(line[5:])
                if n != 1:
                    print(f"{path}: {n} times in {where}: {line[5:]}")
            elif line.startswith("new:"):
                pass


if __name__ == "__main__":
    main()
