#!/usr/bin/env python3
"""Spells the definitions, lemmas, fields and constructors that this repository's specs/ and proofs/ declare as Rattle does now.

usage: python3 tools/respell.py            at the top of the repository, after port.py, once

A name that begins with a small letter gets snake case, with an underscore for each dash; one that begins with a capital and has a dash gets
camel case. Names of src/, exported names, strings, inputs and outputs stay. A lemma that would get its function's name gets _lem.
It rewrites .antt, .rt and .edit files of crates/, and what stands between backticks in README.md and docs/. It prints each name whose new
spelling something else has already, and leaves that name as it is.
"""

import os
import re
import sys

NAME = r"[^\s(){}.;,@\"«»`\[\]]+"
TOKEN = re.compile(r"\"(?:[^\"\\\n]|\\.)*\"|" + NAME)
KEYWORDS = {"use", "mod", "module", "unfolding", "mutual", "pub", "where", "let", "in", "elim"}
MADE = re.compile(r"(Answers|Invariants|Proof)\.antt$")


# Names that would fall together with another of the repository's own.
APART = {
    "fromDefault": "from_default_of",
    "Same-lists": "AreSameLists",
    "access-of": "access_of_rec",
    "action-bytes": "action_bytes_at",
    "all-utf8": "lists_are_utf8",
    "body-at": "body_at_code",
    "by-place": "items_by_place",
    "bytes-of": "answer_bytes",
    "constant-literal": "literal_of_constant",
    "header-code": "code_of_header",
    "header-data": "data_of_header",
    "label-of": "label_of_item",
    "labels-of": "labels_of_forest",
    "lists-in": "lists_within",
    "lists-of": "lists_of_outcome",
    "place-at": "place_at_index",
    "place-of": "place_of_label",
    "pool-at": "pool_at_lem",
    "read-word": "word_reader",
    "record-holds": "record_holds_in",
    "record-of": "bytes_of_record",
}


# The same, of names that port.py has turned already; and lemmas that would get their function's name. Not paths, nor steps in a Proof.antt.
AGAIN = {new: APART[old] for old, new in ((n, n.replace("-", "_")) for n in APART) if "-" in old and old[0].islower()}
AGAIN |= {n: n + "_lem" for n in "head_at labels_at labels_in list_at lists_at no_text same_bytes text_in value_in".split()}


# Where a crate's own definition had the name in camel case, which port.py has turned to the same spelling.
OF_CRATE = {
    "action_reader": "place_of",
    "action_writer": "body_at bytes_of lists_of",
    "as2_codegen": "lists_of",
    "definition": "lists_of",
    "list_slice": "bytes_of",
    "resolver": "lists_of",
    "rows": "label_of",
    "script": "bytes_of",
}


# Names that are another's in one crate only.
IN_CRATE = {
    "rascal": {"list_words_lem": "list_words"},
}


def files(ends):
    for folder, dirs, names in os.walk("crates"):
        dirs[:] = sorted(d for d in dirs if d != "out")
        for name in sorted(names):
            if name.endswith(ends):
                yield os.path.join(folder, name)


def read(path):
    with open(path, encoding="utf-8", newline="") as it:
        return it.read()


def declared():
    """The names that the texts declare, each with whether it is a definition (and not a lemma)."""
    out = {}
    for path in files((".antt",)):
        if MADE.search(path):
            continue
        above = None
        for line in read(path).split("\n"):
            top = re.match(r"(?:(?:pub|abbrev|unfoldable) )*(?:(record|data|ruleset) )?(" + NAME + r")(?=(?: [{(].*)? :|$| )", line)
            if line[:2] == "--" or not line.strip():
                continue
            if line[0] not in " )}]":
                words = line.split()
                above = "data" if words and any(w in ("data", "record") for w in words[:3]) else None
                if top and (top[1] or re.match(r"(?:(?:pub|abbrev|unfoldable) )*" + re.escape(top[2]) + r" :", line) or re.fullmatch(r"(?:(?:pub|abbrev|unfoldable) )*" + re.escape(top[2]) + r" :?", line.strip())):
                    if top[2] not in KEYWORDS:
                        out[top[2]] = out.get(top[2], False) or bool(top[1]) or "abbrev" in words or "unfoldable" in words
                continue
            field = re.match(r" +(?:abbrev |pub )*(" + NAME + r")(?: (?:\{[^}]*\}|" + NAME + r"))* :", line)
            if field and (above == "data" or field):
                out.setdefault(field[1], False)
    return out


def words_in(path, text):
    """The words that a new spelling must not meet: of .antt those behind no dot, of .rt what a clause sees (parameters, fields, constants)."""
    if path.endswith(".rt"):
        return set(re.findall(r"(?:\bconst |\bstatic |\blet (?:mut )?|[(,{ ])(\w+): ", text))
    if path.endswith(".edit") or MADE.search(path):
        return set()
    text = re.sub(r"(?m)--.*$|^(?:pub )?use [^\n{]*", "", text)
    return set(m[0] for m in TOKEN.finditer(text) if m[0][0] != '"' and text[m.start() - 1 : m.start()] != ".")


def of_libraries(text):
    """The names that a file imports from a library."""
    out = set()
    for module, names in re.findall(r"(?m)\buse ([^\s{;]+)\.\{([^}]*)\}", text):
        parts = module.split(".")
        if parts[0] != "Rattle" or not os.path.isdir(os.path.join("crates", parts[1])):
            out |= set(w for it in names.split(",") for w in it.split())
    return out


def respelled(name):
    if name in APART:
        return APART[name]
    if name[0].isupper():
        if "-" not in name:
            return name
        return "".join(w[:1].upper() + w[1:] for w in name.split("-"))
    if not re.match(r"[a-z]", name) or not re.fullmatch(r"[\w'-]+", name):
        return name
    out = name.replace("-", "_")
    out = re.sub(r"(?<=[a-z0-9])([A-Z])(?=[a-z])", lambda m: "_" + m[1].lower(), out)
    out = re.sub(r"(?<=[a-z0-9])([A-Z])$", lambda m: "_" + m[1].lower(), out)
    return out


def apart(path, text):
    stays = OF_CRATE.get(path.split("/")[1], "").split()
    if path == "crates/rascal/proofs/Joined.antt":
        stays = ["lists_of"]

    def turn(m):
        if m[0] not in AGAIN or m[0] in stays or text[m.end() : m.end() + 1] == "." or (path.endswith("Proof.antt") and text[m.start() - 1] == "."):
            return m[0]
        return AGAIN[m[0]]

    if not path.endswith(".antt"):
        return text
    text = re.sub(r" as entry_of$", " as entries", re.sub(r"\bentry_of\.(?=\w)", "entries.", text), flags=re.M)
    return TOKEN.sub(turn, text)


def main():
    names = {AGAIN.get(n, n): is_def for n, is_def in declared().items()}
    all_tokens = set()
    texts, old = {}, {}
    for path in files((".antt", ".rt", ".edit")):
        old[path] = read(path)
        texts[path] = apart(path, old[path])
        all_tokens |= words_in(path, texts[path])
    new = {n: respelled(n) for n in names}
    new = {a: b for a, b in new.items() if a != b}
    taken = {}
    for a in sorted(new, key=lambda n: (not re.search("[A-Z]", n[1:]), not names[n], n)):
        b = new[a]
        if b in all_tokens or b in taken:
            if b + "_lem" in all_tokens or b + "_lem" in taken or names[a]:
                print(f"left: {a}: {b} is there already")
                del new[a]
                continue
            print(f"look: {a}: {b} is there already, so it is {b}_lem")
            b = new[a] = b + "_lem"
        taken[b] = a
    def turn(text):
        theirs = of_libraries(text)
        return TOKEN.sub(lambda m: m[0] if m[0][0] == '"' or m[0] in theirs else new.get(m[0], m[0]), text)

    changed = 0
    for path, text in texts.items():
        to = turn(text)
        own = IN_CRATE.get(path.split("/")[1], {})
        to = TOKEN.sub(lambda m: own.get(m[0], m[0]), to)
        if to != old[path]:
            changed += 1
            with open(path, "w", encoding="utf-8", newline="") as it:
                it.write(to)
    for path in ["README.md"] + sorted(os.path.join("docs", f) for f in os.listdir("docs") if f.endswith(".md")):
        text = read(path)
        to = re.sub(r"`[^`\n]+`", lambda m: turn(m[0]), text)
        if to != text:
            changed += 1
            with open(path, "w", encoding="utf-8", newline="") as it:
                it.write(to)
    print(f"respell: {len(new)} names, {changed} files")
    return 0


if __name__ == "__main__":
    sys.exit(main())
