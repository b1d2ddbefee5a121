#!/usr/bin/env python3
"""Spells the repository's own definitions and lemmas as today's Rattle does: words in snake case, types in camel case.

usage: tools/respell.py [--list]     at the top of a repository that port.py has just turned

It reads which names the files of specs/ and proofs/ define, and writes the new ones in every .antt file and in the
clauses of every .rt file. Functions of src/ keep their names, and so does what Rattle generates. --list prints the table,
and the names that would fall together, and writes nothing.
"""
import collections
import os
import re
import sys

TOKEN = re.compile(r"[^\s(){}.;,\"«»\[\]`@]+")
HEADS = {"abbrev", "pub", "unfoldable", "private", "data", "record", "module", "ruleset"}
# what Rattle makes stands behind these
MADE = re.compile(r"(tie|goal|Need|invariant|decreases)\b")
# a type that would fall together with another
APART = {"In-zone": "IsInZone"}
# lemmas that port.py has spelled as the definitions that they speak of are to be spelled, by crate and file
LEMMAS = {
    "form_order.proofs.Parts": ("part_bytes", "part_end"),
    "model.proofs.Bytes": ("head_bytes",),
    "form_canonical.proofs.CanonicalBytes": ("tables_start",),
    "text_checking.proofs.Fields": ("count_code",),
}


def antt_files():
    for folder, dirs, names in os.walk("crates"):
        dirs[:] = sorted(d for d in dirs if d != "out")
        for name in sorted(names):
            if name.endswith(".antt"):
                path = os.path.join(folder, name)
                parts = path.split(os.sep)
                yield path, parts[2] == "proofs" and len(parts) > 4


def snake(name):
    return re.sub(r"(?<=[a-zα-ω0-9])([A-Z])", lambda m: "_" + m.group(1).lower(), name).replace("-", "_")


def camel(name):
    return re.sub(r"-(\w)", lambda m: m.group(1).upper(), name)


def defined(path, of_function):
    """The names that the file defines, each with the text of its signature."""
    lines = open(path, encoding="utf-8").read().split("\n")
    for number, line in enumerate(lines):
        words = line.split()
        at = 0
        while at < len(words) and words[at] in HEADS:
            at += 1
        if at >= len(words) or words[at] in ("use", "mod", "let", "in", "where", "open", "_"):
            continue
        if at == 0 and ":" not in words[1:]:
            continue
        if not TOKEN.fullmatch(words[at]) or words[at].startswith(("-", "◌", "λ")):
            continue
        text = line + (lines[number + 1] if number + 1 < len(lines) else "")
        yield words[at], text


def library_names():
    """What files bring from the libraries: such a name is not ours, even where a proof has one of its own like it."""
    names = set()
    for path in all_files():
        for module, items in re.findall(r"use ([\w.']+)\.\{([^}]*)\}", open(path, encoding="utf-8").read()):
            own = re.match(r"Rattle\.(\w+)\.", module)
            if not own or not os.path.isdir(os.path.join("crates", own.group(1))):
                names |= {word for item in items.split(",") for word in item.split()}
    return names


def table():
    new, places, standing = {}, collections.defaultdict(set), set()
    for path, of_function in antt_files():
        for name, text in defined(path, of_function):
            if not of_function:
                standing.add(name)
            if of_function and re.search(r"\b(tie|goal)\.(Need|invariant|decreases|measure|return|loop)", text):
                continue
            if of_function and (MADE.match(name) or name.endswith("-spec") or re.match(r"(returns|loop)\b", name)):
                continue
            to = camel(name) if name[0].isupper() else snake(name)
            to = APART.get(name, to)
            if to != name:
                new[name] = to
                places[name].add(path)
    for name in library_names() & new.keys():
        del new[name]
    # a lemma that would have a definition's name
    taken = {to for name, to in new.items() if "-" not in name} | standing
    for name in new:
        if "-" in name and not name[0].isupper() and new[name] in taken:
            new[name] += "_lem"
    return new, places


def lemmas_apart():
    """Gives each lemma of LEMMAS its ending, in its own file and where it is imported."""
    for where, names in LEMMAS.items():
        crate, _, module = where.split(".")
        own = os.path.join("crates", crate, "proofs", module + ".antt")
        for path in all_files():
            text = to = open(path, encoding="utf-8").read()
            for name in names:
                if path == own or re.search(re.escape(where) + r"\.\{[^}]*\b" + name + r"\b", text):
                    to = re.sub(r"(?<![\w.'-])" + name + r"(?![\w'-])", name + "_lem", to)
            if to != text:
                with open(path, "w", encoding="utf-8") as out:
                    out.write(to)


def written(text, new, rust):
    """The text with the new names; in Rust and in comments no name with a dash is taken for one."""
    out = []
    for line in text.split("\n"):
        mark = line.find("//" if rust else "--")
        code, note = (line, "") if mark < 0 else (line[:mark], line[mark:])
        code = TOKEN.sub(lambda m: new.get(m.group(0), m.group(0)), code)
        note = re.sub(r"`([^`]*)`", lambda m: "`" + TOKEN.sub(lambda k: new.get(k.group(0), k.group(0)), m.group(1)) + "`", note)
        note = TOKEN.sub(lambda m: new.get(m.group(0), m.group(0)) if "-" not in m.group(0) else m.group(0), note)
        out.append(code + note)
    return "\n".join(out)


def all_files():
    for folder, dirs, names in os.walk("crates"):
        dirs[:] = sorted(d for d in dirs if d != "out")
        for name in sorted(names):
            if name.endswith((".antt", ".rt")):
                yield os.path.join(folder, name)


def together(new, places):
    """Names that fall together: two old ones, or a new one and a word that a file has already."""
    backwards = collections.defaultdict(list)
    for old, to in new.items():
        backwards[to].append(old)
    for to, olds in sorted(backwards.items()):
        if len(olds) > 1:
            print("together:", to, "<-", *olds)
    for path in all_files():
        words = set(TOKEN.findall(open(path, encoding="utf-8").read()))
        for old in words & new.keys():
            if new[old] in words:
                print("stands:", path, old, "->", new[old])


def main(argv):
    new, places = table()
    if argv == ["--list"]:
        together(new, places)
        print(len(new), "names")
        return
    lemmas_apart()
    for path in all_files():
        text = open(path, encoding="utf-8").read()
        to = written(text, new, path.endswith(".rt"))
        if to != text:
            with open(path, "w", encoding="utf-8") as out:
                out.write(to)


if __name__ == "__main__":
    main(sys.argv[1:])
