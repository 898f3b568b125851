#!/usr/bin/env python3
"""Spells this repository's own definitions and lemmas as today's Rattle does: words in snake case, and a lemma that would have the name of
a definition ends in _lem. Run once, at the top, right after the kit's port.py; a second run changes nothing.

usage: tools/port_names.py            rewrites crates/**.antt, crates/**.rt (clauses alone have such names) and crates/*/must-fail/*.edit
       tools/port_names.py --list     prints OLD<tab>NEW for each name instead

Functions of src/, exported C names, strings and comments' prose keep their words; a name in a comment follows where it cannot be prose.
"""

import collections
import os
import re
import sys

TOKEN = re.compile(r"--[^\n]*|//[^\n]*|\"(?:[^\"\\\n]|\\.)*\"|[^\s(){}.;,@\"«»\[\]\\`]+")
DECLARED = re.compile(r"\s*(?:(?:abbrev|pub|unfoldable|opaque)\s+)*(?:(?:record|data)\s+)?([^\s:(){},.=|;]+)(?:\s+[^=:]*?)?\s*:(?:\s|$)")
NO_NAME = re.compile(r"\s*(use|let|module|where|elim|in)\b")

# Where port.py's spelling of a lemma, or a variable, is the new name of a definition that the file uses.
FIRST = {
    "crates/list_trials/proofs/Instances.antt": {"same_at": "same_at_lem"},
    "crates/orders/proofs/StageLaws.antt": {"in_order": "is_in_order"},
    "crates/rules/proofs/HeldLaws.antt": {"open_order": "open_order_lem"},
    "crates/demands/proofs/Allocation.antt": {"open_order": "open_order_lem"},
    "crates/holdings/proofs/HoldLaws.antt": {"open_order": "open_order_lem", "given_pair": "given_pair_lem"},
    "crates/search/proofs/PairLaws.antt": {"given_pair": "given_pair_lem"},
    "crates/bindings/proofs/BindingLaws.antt": {"given_pair": "given_pair_lem"},
    "crates/typed/proofs/ArgumentLaws.antt": {"by_number": "by_number_lem"},
    "crates/typed/proofs/arguments/stands_for/Proof.antt": {"by_number": "by_number_lem"},
}

# The bit of a joint set, and of a common one: a dash between two names, as the kit writes it.
JOINED = {"bit-or", "bit-and"}


def files(ends):
    for folder, dirs, names in os.walk("crates"):
        dirs[:] = sorted(d for d in dirs if d != "out")
        for name in sorted(names):
            if name.endswith(ends):
                yield os.path.join(folder, name)


def read(path):
    with open(path, encoding="utf-8") as f:
        return f.read()


def of_a_function(path):
    """Whether the file is the proof of one function: its names are the goals', and Rattle makes those."""
    return "/proofs/" in path and path.count("/") > 3


def words(text):
    return [m[0] for m in TOKEN.finditer(text) if not m[0].startswith(("--", "//", '"'))]


def mixed(word):
    return re.fullmatch(r"[a-z][A-Za-z0-9_'-]*", word) and re.search("[A-Z]", word)


def snake(word):
    """Each part between dashes in snake case; a part that begins with a capital is a fact, and keeps it."""
    parts = [p if p[:1].isupper() else re.sub(r"(?<=[A-Z])(?=[A-Z][a-z])", "_", re.sub(r"(?<=[a-z0-9])(?=[A-Z])", "_", p)).lower() for p in word.split("-")]
    return "-".join(parts)


def names():
    declared, used, libraries, plain = set(), collections.Counter(), set(), set()
    for path in files((".antt", ".rt")):
        text = read(path)
        used.update(words(text))
        if not path.endswith(".antt"):
            continue
        plain.update(re.findall(r"(?<![\w.'-])[a-z][a-z0-9_']*(?![\w'-])", re.sub(r"--[^\n]*", "", text)))
        for module, brought in re.findall(r"(?m)^use (\S+?)\.\{([^}]*)\}", text):
            if not module.startswith("Rattle.") or module.startswith("Rattle.std."):
                libraries.update(w.strip().split(" as ")[0] for w in brought.split(","))
        if not of_a_function(path):
            declared.update(m[1] for line in text.split("\n") if not NO_NAME.match(line) and (m := DECLARED.match(line)))
    turned = {w: snake(w) for w in used if mixed(w) and "-" not in w}
    taken = set(turned.values()) | plain
    for w in sorted(declared):
        if "-" in w and w not in libraries and w not in JOINED and re.fullmatch(r"[a-z][A-Za-z0-9_'-]*", w):
            new = snake(w).replace("-", "_")
            new = new if new not in taken else new + "_lem"
            if new in taken:
                raise SystemExit(f"{w}: {new} is taken")
            taken.add(new)
            turned[w] = new
    return turned


def renamed(text, turned):
    def one(m):
        w = m[0]
        if w.startswith('"'):
            return w
        if w.startswith(("--", "//")):
            inside = lambda n: turned[n[0]] if n[0] in turned and ("-" not in n[0] or text_around(w, n)) else n[0]
            return re.sub(r"[A-Za-z][\w'-]*[\w']", inside, w)
        return turned.get(w, w)

    def text_around(comment, n):
        return comment[n.start() - 1 : n.start()] == "`" and comment[n.end() : n.end() + 1] == "`"

    return TOKEN.sub(one, text)


def main():
    turned = names()
    if sys.argv[1:] == ["--list"]:
        print("\n".join(f"{a}\t{b}" for a, b in sorted(turned.items())))
        return
    for path in files((".antt", ".rt", ".edit")):
        text = read(path)
        new = text
        for a, b in FIRST.get(path, {}).items():
            new = re.sub(rf"(?<![\w.'-]){a}(?![\w'-])", b, new)
        new = renamed(new, turned)
        if new != text:
            with open(path, "w", encoding="utf-8") as f:
                f.write(new)


if __name__ == "__main__":
    main()
