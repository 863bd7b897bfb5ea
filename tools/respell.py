#!/usr/bin/env python3
"""Brings the definitions and lemmas of the crates to the kit's spelling: words in snake case.

usage: tools/respell.py [--check]    (at the top of the repository, after the kit's port.py, once)

Turned are the names that the antt files of crates/ hold, wherever they stand in crates/ (antt,
Rattle and must-fail edits) and in README.md and docs/, and there also those that port.py has turned:
  hartAt           hart_at           a word in camel case
  goesOn-quiet     goes_on-quiet     a part of a lemma's name
  getD-map-in      get_or-map-in     the library's own word for the same function
  SFENCE-VMA       sfence_vma        a constructor
  START-PENDING    START_PENDING     a state, as the numbers of src/ spell it
  count_at         count_at_lem      a lemma whose name a function takes (countAt, counterAt)
  if b then x else y, when b then x else y: the rules' own choice, whose name the library has since
                   taken for another
Functions of src/, exported names, strings, inputs and outputs keep their names. A new name that
stands somewhere already is printed with its places; --check writes nothing.
"""

import pathlib
import re
import sys

WORD = re.compile(r"(?<![A-Za-z0-9_'])[A-Za-z_][A-Za-z0-9_'ᴰ]*(?:-[A-Za-z0-9_'ᴰ]+)*")
CAMEL = re.compile(r"[a-z][a-z0-9_]*[A-Z]")
SHOUTED = re.compile(r"[A-Z]+(?:-[A-Z]+)+")
SPECIAL = {
    "getD": "get_or",
    "get_d_any": "get_or-any",
    "count_at": "count_at_lem",
    "counter_at": "counter_at_lem",
}


CHOICE = re.compile(r"(?<![\w.'-])if(?=◌then◌else◌|\s|$)")


def chosen(path, text):
    """The text with `when` for `if`: in antt all of it but comments, elsewhere where a `then` follows."""
    turned = []
    for line in text.split("\n"):
        code, dashes, comment = line, "", ""
        if path.suffix == ".antt":
            code, dashes, comment = line.partition("--")
        elif line.lstrip().startswith("//") or "then" not in line:
            code, comment = "", line
        turned.append(CHOICE.sub("when", code) + dashes + comment)
    return "\n".join(turned)


def part(word):
    if word in SPECIAL:
        return SPECIAL[word]
    if not CAMEL.match(word):
        return word
    return re.sub(r"[A-Z]", lambda m: "_" + m.group().lower(), word)


def respelled(name):
    if name in SPECIAL:
        return SPECIAL[name]
    if SHOUTED.fullmatch(name):
        snake = name.replace("-", "_")
        return snake if snake.endswith("_PENDING") else snake.lower()
    return "-".join(part(word) for word in name.split("-"))


def main():
    if sys.argv[1:] not in ([], ["--check"]):
        sys.exit(__doc__)
    top = pathlib.Path.cwd()
    proofs = sorted(top.glob("crates/*/specs/**/*.antt")) + sorted(top.glob("crates/*/proofs/**/*.antt"))
    sources = sorted(top.glob("crates/*/src/**/*.rt"))
    others = sorted(top.glob("crates/*/must-fail/*.edit")) + sorted(top.glob("docs/*.md"))
    others.append(top / "README.md")
    places = {}
    for path in proofs + sources:
        for name in WORD.findall(path.read_text()):
            places.setdefault(name, set()).add(str(path.relative_to(top)))
    held = {n for path in proofs for n in WORD.findall(path.read_text())}
    names = {n: respelled(n) for n in held if respelled(n) != n}
    for lemma, function in (("count_at", "countAt"), ("counter_at", "counterAt")):
        if function not in held:
            names.pop(lemma, None)  # the function has taken the name already
    for old, new in sorted(names.items()):
        if new in places and new not in names:
            both = sorted(places[old] & places[new])
            print(f"{old} -> {new}: stands already; in one file: {', '.join(both) or 'never'}")
    # what port.py itself has respelled still has its old spelling in the pages and the edits
    for path in others:
        for old in WORD.findall(path.read_text()):
            if old not in names and respelled(old) != old and respelled(old) in held:
                names[old] = respelled(old)
    turned = 0
    for path in proofs + sources + others:
        text = path.read_text()
        new = WORD.sub(lambda m: names.get(m.group(), m.group()), text)
        if path.suffix != ".md":
            new = chosen(path, new)
        if new != text:
            turned += 1
            if not sys.argv[1:]:
                path.write_text(new)
    print(f"{len(names)} names, {turned} files")


main()
