#!/usr/bin/env python3
"""Respells the repository's own definitions, once: run at the top of the tree, right after the kit's script for older repositories.

Words of definitions, of lemmas and of what they bind are in snake case, as soundBook that becomes sound_book; types, modules, dashes in the names of
lemmas, functions of src/, strings and outputs stay. Three lemmas whose names would fall together with such a definition get their dash back.
Code, rules, laws, must-fail edits, README.md and docs/ are gone over by one rule: a word that begins with a small letter and has a capital in it.
"""
import os
import re

# A lemma's name that a definition takes: the file that states it, and the name with its dash.
APART = {
    "filled_at": ("round_award_rules/proofs/Filling.antt", "filled-at"),
    "is_digit": ("text_numbers/proofs/DecimalLaws.antt", "is-digit"),
    "header_of": ("round_bids/proofs/BidLaws.antt", "header-of"),
}
WORD = re.compile(r"(?<![\w'-])[a-z][a-z0-9]*[A-Z][A-Za-z0-9]*'?(?![\w-])|\"(?:[^\"\\\n]|\\.)*\"")


def snake(word):
    return re.sub(r"(?<=[a-z0-9])([A-Z])", lambda m: "_" + m.group(1).lower(), word).lower()


def files(top, *endings):
    for folder, dirs, names in os.walk(top):
        dirs[:] = sorted(d for d in dirs if d != "out")
        for name in sorted(names):
            if name.endswith(endings):
                yield os.path.join(folder, name)


def rewrite(path, change):
    with open(path, encoding="utf-8") as f:
        text = f.read()
    new = change(text)
    if new != text:
        with open(path, "w", encoding="utf-8") as f:
            f.write(new)


def apart(text, path):
    """The three lemmas, in the file that states them and in those that import it."""
    for name, (stated, dashed) in APART.items():
        module = "Rattle." + stated[:-5].replace("/", ".") + "."
        if path.endswith(stated) or (module in text):
            text = re.sub(r"(?<![\w'-])" + name + r"(?![\w'-])", dashed, text)
    return text


def respelled(text, known=None):
    def word(m):
        w = m.group(0)
        if w[0] == '"' or known is not None and w not in known:
            return w
        return snake(w)
    return WORD.sub(word, text)


def main():
    known = set()
    for path in files("crates", ".rt", ".antt"):
        with open(path, encoding="utf-8") as f:
            known.update(w for w in WORD.findall(f.read()) if w[0] != '"')
    for path in files("crates", ".antt"):
        rewrite(path, lambda text: apart(text, path))
    for path in files("crates", ".rt", ".antt"):
        rewrite(path, respelled)
    pages = [os.path.join("docs", p) for p in os.listdir("docs") if p.endswith(".md")]
    for path in [*files("crates", ".edit"), "README.md", *pages]:
        rewrite(path, lambda text: respelled(text, known))
    print(f"respell: {len(known)} words")


main()
