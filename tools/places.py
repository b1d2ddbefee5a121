#!/usr/bin/env python3
"""Lists the places in src/ that docs/DESIGN-PASS.md counts, by its points 1 to 8.

usage: tools/places.py [--list] [POINT..]     at the top of the repository

It goes by text: a place that it lists may have a reason to stay, which then stands beside it or on that page. Without
--list it prints a count for each point; with it, the places too.
"""
import collections
import difflib
import glob
import os
import re
import sys

HEAD = re.compile(r"^( *)(pub )?(extern \"C\" )?fn (\w+)", re.M)
WORD = re.compile(r"[A-Za-z_]\w*|\d+|[^\s\w]")
KEPT = {"let", "mut", "if", "else", "while", "for", "in", "return", "true", "false", "as", "match", "loop", "break"}
# names of functions that compare, order, copy, convert or print as the library does
BY_HAND = (r"is_same|is_earlier\w*|lesser|larger|less|less_one|at_most|shorter|wide|two_at|four_at|put_two|put_four|packed|"
           r"byte_of|copy_numbers|copy_bytes|copy_row|put_choice|put_costs|clear\w*|exchange|move_first|wrapping_product|"
           r"hit_byte|is_digit|either|digit_count|put_digits|clamped|front_of|weigh|unweighed|cost_at|numbers_at")
# a result that stands for none
NONE = r"find_match|find_form|find_zero|find_part|lowest|find_place|no_lists|none_held|no_digits|not_made|given_up"


def functions():
    """Each function of src/: crate, line, name, parameters, result, clauses, body."""
    for path in sorted(glob.glob("crates/*/src/*.rt")):
        text = open(path, encoding="utf-8").read()
        crate = path.split("/")[1]
        for m in HEAD.finditer(text):
            indent = m.group(1)
            open_at = text.index("(", m.end())
            depth, i = 0, open_at
            while True:
                depth += {"(": 1, ")": -1}.get(text[i], 0)
                i += 1
                if depth == 0:
                    break
            params = text[open_at + 1:i - 1]
            end = text.index("\n" + indent + "}", i)
            rest = text[i:end]
            start = rest.find("\n" + indent + "{\n")
            if start < 0 or rest.lstrip().startswith("{") or re.match(r"[^\n]*\{\n", rest):
                start = rest.index("{\n")
            head, body = rest[:start], rest[start:]
            result = re.match(r"\s*(?:->\s*([^\n{]+))?", head).group(1) or ""
            yield crate, text.count("\n", 0, m.start()) + 1, m.group(4), params, result.strip(), head, body


def loops():
    for path in sorted(glob.glob("crates/*/src/*.rt")):
        lines = open(path, encoding="utf-8").read().split("\n")
        for i, line in enumerate(lines):
            m = re.match(r"^( *)while (.*) \{$", line)
            if not m:
                continue
            j = i + 1
            while lines[j] != m.group(1) + "}":
                j += 1
            body = "\n".join(lines[i + 1:j])
            names = re.findall(r"\b[a-z_]+\b", m.group(2))
            if any(re.search(r"^ *%s (\+=|-=) 1;" % n, body, re.M) for n in names):
                yield "%s:%d" % (path, i + 1), m.group(2)


def shape(body):
    names = {}
    out = []
    for t in WORD.findall(re.sub(r"//.*", "", body)):
        if t in KEPT or not re.match(r"\w", t):
            out.append(t)
        elif t[0].isdigit():
            out.append("#")
        else:
            out.append("v%d" % names.setdefault(t, len(names)))
    return out


def twins():
    """Functions whose bodies are the same but for names and numbers, and those that are nearly so."""
    shapes = [(c, n, shape(b)) for c, _, n, _, _, _, b in functions()]
    shapes = [s for s in shapes if len(s[2]) >= 30]
    for i, (c, n, a) in enumerate(shapes):
        for d, m, b in shapes[i + 1:]:
            if abs(len(a) - len(b)) > 0.15 * max(len(a), len(b)):
                continue
            w = difflib.SequenceMatcher(None, a, b, False)
            if w.real_quick_ratio() > 0.9 and w.quick_ratio() > 0.9 and w.ratio() > 0.9:
                yield "%s::%s" % (c, n), "%s::%s" % (d, m)


def facts():
    """Facts that stand in the requires of three functions or more."""
    seen = collections.Counter()
    for c, _, n, _, _, head, _ in functions():
        m = re.search(r"requires(?: \w+)? \{(.*?)\}\s*(?:ensures|$)", head, re.S)
        if not m:
            continue
        depth, part = 0, ""
        for ch in re.sub(r"\s+", " ", m.group(1)) + "×":
            depth += {"(": 1, ")": -1}.get(ch, 0)
            if ch == "×" and depth == 0:
                seen[re.sub(r"^\((.*)\)$", r"\1", part.strip())] += 1
                part = ""
            else:
                part += ch
    for fact, k in seen.most_common():
        if k >= 3:
            yield fact, "%d contracts" % k


def together():
    """Pairs of parameters, by name and type, that stand together in twelve functions or more."""
    seen = collections.Counter()
    for c, _, n, params, _, _, _ in functions():
        ps = sorted({re.sub(r"\s+", " ", p.strip()) for p in re.split(r",\s", params) if ":" in p})
        for i, a in enumerate(ps):
            for b in ps[i + 1:]:
                seen[(a, b)] += 1
    for (a, b), k in seen.most_common():
        if k >= 12:
            yield a + ", " + b, "%d functions" % k


def grep(pattern, what):
    for path in sorted(glob.glob("crates/*/src/*.rt")):
        for k, line in enumerate(open(path, encoding="utf-8"), 1):
            if re.search(pattern, line):
                yield "%s:%d" % (path, k), what + line.strip()


def point(n):
    if n == 1:
        yield from grep(r"^ *(pub )?(number|finding|kind): u(8|size),$", "")
        yield from grep(r"^ *(pub )?(full|found|whole|decided|ok): bool,$", "")
        for c, line, name, _, result, _, _ in functions():
            if result == "u8" and not name.startswith("frontier_"):
                yield "%s:%d" % (c, line), "fn %s -> u8" % name
        yield from grep(r"\bfn (%s)\(" % NONE, "")
        yield from grep(r"\bconst NO_\w+:", "")
    if n == 2:
        yield from twins()
    if n == 3:
        yield from loops()
    if n == 4:
        yield from grep(r"\bfn (%s)\(" % BY_HAND, "")
    if n == 5:
        yield from facts()
        yield from together()
    if n == 6:
        for c, line, name, params, _, _, _ in functions():
            if re.search(r"\[u(8|32|64); \d+\]", params) and re.search(r"\b(n|p|count|len|arity|size|c): usize", params):
                yield "%s:%d" % (c, line), "fn " + name
    if n == 7:
        yield from grep(r"\b(kind|by_passes|first_form|wide|is_last|is_shared|join|is_above): (usize|bool)", "")
    if n == 8:
        for path in sorted(glob.glob("crates/*/proofs/**/Proof.antt", recursive=True)):
            yield path, "%d lines" % sum(1 for _ in open(path, encoding="utf-8"))


def main():
    if not os.path.isdir("crates"):
        sys.exit("tools/places.py: no folder crates/ here; call it at the top of the repository")
    asked = [int(a) for a in sys.argv[1:] if a.isdigit()] or range(1, 9)
    for n in asked:
        places = list(point(n))
        print("point %d: %d places" % (n, len(places)))
        if "--list" in sys.argv:
            for where, what in places:
                print("  %s  %s" % (where, what))


if __name__ == "__main__":
    main()
