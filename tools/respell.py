#!/usr/bin/env python3
"""Brings the repository's own definitions and lemmas to today's spelling: words in snake case, types and modules in camel case.

usage: tools/respell.py [--dry]      once, after port.py, at the top of the checkout

It goes by what crates/*/specs and crates/*/proofs declare: aDefinition becomes a_definition, a-lemma becomes a_lemma, and aDefinition-lemma, whose dash joins
two names, a_definition-lemma. Functions of src/, exported C names, strings, inputs and outputs keep their names, and so do names that Rattle makes (goals, steps).
Two names of one file that would fall together are refused, unless LEMMAS names the lemma, which then ends in _lem.
"""
import collections
import os
import re
import sys

TOKEN = re.compile(r"[\w'·-]+")
DECLARED = re.compile(r"^\s*(?:(?:abbrev|unfoldable|pub|private) )*([\w'·-]+) :(?: (.*))?$")
# lemmas that would have the name of a definition
LEMMAS = set(
    "added-all book-after by-direction bytes-from conflict-answer conflict-of corner-if corner-in corner-of header-put headers-of highs-fit in-force local-port numbers-in outcome-lines"
    " record-part remote-port same-box".split()
)
# definitions that would have the name of a field or of the library's word
OTHERS = {"localPort": "local_ports", "remotePort": "remote_ports", "arrayVals": "table_vals"}
# files of functions whose module has the name of a definition or lemma they cite: a path is no name
PATHS = {"is_ranking", "decoded_gap", "last_covers"}
# names that are not for this script, since Rattle makes them
MADE = re.compile(r"^(?:invariant|decreases|μ)-|-(?:requires|init|preserved|smaller|spec)$|-loop(?:-\d+)?$|^(?:returns|overflow|sub|part|bounds|slice)-")


def snake(name):
    words = re.sub(r"([a-z0-9])([A-Z])", lambda m: m[1] + "_" + m[2].lower(), name)
    if words != name and "-" in name:
        head, rest = words.split("-", 1)
        return head + "-" + rest.replace("-", "_")
    return words.replace("-", "_")


def texts(root):
    for folder, folders, names in os.walk(os.path.join(root, "crates")):
        folders[:] = sorted(d for d in folders if d != "out")
        for name in sorted(names):
            if name.endswith((".antt", ".rt", ".edit")):
                yield os.path.join(folder, name)


def read(path):
    with open(path, encoding="utf-8") as file:
        return file.read()


def of_function(path):
    """Whether the file is the proof of a function, which has names that Rattle makes."""
    return os.path.basename(path) in ("Proof.antt", "Answers.antt", "Invariants.antt")


def goals(text):
    return set(re.findall(r"(?m)^([\w'·-]+) : (?:tie|goal)\.", text))


def declared(root):
    names = collections.defaultdict(set)
    for path in texts(root):
        if not path.endswith(".antt"):
            continue
        text = read(path)
        made = goals(text) if of_function(path) else set()
        for line in text.splitlines():
            it = DECLARED.match(line)
            if it and it[1] not in made and not (of_function(path) and MADE.search(it[1])) and "statement M" not in (it[2] or ""):
                names[it[1]].add(path)
    return names


def mapping(names):
    turned = {}
    for name in names:
        if name[0].isupper() or name[0] == "'" or not ("-" in name or re.search(r"[a-z0-9][A-Z]", name)):
            continue
        turned[name] = OTHERS.get(name) or snake(name) + ("_lem" if name in LEMMAS else "")
    return turned


def turn(text, table, known=()):
    """Names of known are those that port.py has turned already, but not in edits, comments and pages."""

    def one(it):
        name = it[0]
        return table.get(name) or (snake(name) if name not in known and snake(name) in known and not name[0].isupper() else name)

    return TOKEN.sub(one, text)


def pages(root):
    docs = os.path.join(root, "docs")
    return [os.path.join(root, "README.md")] + [os.path.join(docs, name) for name in sorted(os.listdir(docs)) if name.endswith(".md")]


def parts(path, text):
    """The text in pieces, each with its kind. In comments only names without a dash are turned, in pages what stands in backticks, and strings and paths not at all."""
    if path.endswith(".md"):
        pattern, odd = r"(`[^`\n]*`)", "names"
    elif path.endswith(".antt"):
        pattern, odd = r"((?m:--(?= ).*$|--$|^ *--.*$))", "prose"
    elif path.endswith(".edit"):
        pattern, odd = r"((?m:^#.*$|^file:.*$))", "prose"
    else:
        pattern, odd = r"((?m:^ *//.*$)|b?\"(?:[^\"\\]|\\.)*\")", "prose"
    for piece in re.split(pattern, text):
        kind = odd if re.fullmatch(pattern, piece) else "rest" if path.endswith(".md") else "names"
        if piece[:1] == '"' or piece[:2] == 'b"':
            kind = "rest"
        yield piece, kind


def main(argv):
    root = os.getcwd()
    names = declared(root)
    table = mapping(names)
    plain = {a: b for a, b in table.items() if "-" not in a}
    bad = []
    for path in texts(root):
        if not path.endswith(".antt"):
            continue
        text = read(path)
        made = goals(text) if of_function(path) else set()
        here = set(TOKEN.findall("".join(p for p, kind in parts(path, text) if kind == "names"))) - made
        images = collections.defaultdict(set)
        for token in here:
            images[table.get(token, token)].add(token)
        for image, sources in images.items():
            if len(sources) > 1 and not (of_function(path) and image in PATHS):
                bad.append((os.path.relpath(path, root), image, sorted(sources)))
    for path, image, sources in bad:
        print(f"respell: {path}: {', '.join(sources)} would all be {image}")
    if bad and "--dry" not in argv and "--anyway" not in argv:
        return 1
    if "--dry" in argv:
        return 0
    changed = 0
    for path in list(texts(root)) + pages(root):
        text = read(path)
        made = goals(text) if of_function(path) else set()
        local = {a: b for a, b in table.items() if a not in made}
        known = {b for b in names if "_" in b} if path.endswith((".edit", ".md")) else ()
        new = "".join(turn(piece, local, known) if kind == "names" else turn(piece, plain) if kind == "prose" else piece for piece, kind in parts(path, text))
        if new != text:
            with open(path, "w", encoding="utf-8") as file:
                file.write(new)
            changed += 1
    print(f"respell: {len(table)} names, {changed} files")
    return 0


if __name__ == "__main__":
    raise SystemExit(main(sys.argv[1:]))
