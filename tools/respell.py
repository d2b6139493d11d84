#!/usr/bin/env python3
"""Brings the repository's own definitions, fields and lemmas to snake case: `bottomUp` and `never-full` are `bottom_up` and `never_full`.

usage: tools/respell.py [--list | --together]    at the top of the repository, once, after port.py

A name is turned where specs/ or proofs/ of a crate declare it: a definition, a lemma, a field, a constructor, also one below `where`. What Rattle makes (the goals of a
proof file, the steps of its `c`) keeps its spelling, and so does a name with a part that begins with a capital behind a dash, as `Fits-fits`. Turned are the words of .antt
files, of the clauses and `ghost use` items of .rt files, and of the `old:` and `new:` lines of must-fail edits; in a comment the code spans, and words in camel case. Text in
quotes stays. --list prints the table and writes nothing; --together prints the names that fall together.
"""
import glob
import re
import sys

WORD = re.compile(r'[^\s(){}.;,@"«»\[\]|:\\]+')
COMMENT = re.compile(r'(?<![^\s(){}.;,@"«»])--[^\n]*')
DECLARED = re.compile(r'\s*(?:abbrev |unfoldable |opaque )*(?:pub )?([^\s(){}.;,@"«»:]+(?: [^\s(){}.;,@"«»:]+)*) :(?: (.*))?$')
HEAD = re.compile(r"\s*(?:abbrev |unfoldable |opaque )*(?:pub )?(record|data)\b")
ANSWER = re.compile(r"tie\.|goal\.|given\.")


def antt_files():
    return sorted(glob.glob("crates/*/specs/**/*.antt", recursive=True) + glob.glob("crates/*/proofs/**/*.antt", recursive=True))


def wrong(word):
    if re.search(r"-[A-Z]|^[A-Z].*-", word):
        return False
    return ("-" in word.strip("-") and re.match(r"[A-Za-zμ]", word)) or (re.match(r"[a-z]", word) and re.search(r"[A-Z]", word))


def snake(word):
    word = word.replace("-", "_")
    word = re.sub(r"(?<=[a-z0-9])([A-Z])", r"_\1", word)
    return word.lower() if not word.startswith("μ") else word


def declared():
    """The names that are declared, those that are fields, and for each file the names of the answers to goals."""
    names, fields, answers = {}, set(), {}
    for path in antt_files():
        with open(path, encoding="utf-8") as f:
            text = COMMENT.sub("", f.read())
        inside = None
        for line in text.split("\n"):
            if not line.strip():
                continue
            depth = len(line) - len(line.lstrip())
            head = HEAD.match(line)
            if head:
                inside = depth
                continue
            if inside is not None and depth <= inside:
                inside = None
            m = DECLARED.match(line)
            if not m:
                continue
            for word in m[1].split():
                if inside is None and depth == 0 and ANSWER.match(m[2] or ""):
                    answers.setdefault(path, set()).add(word)
                    continue
                if inside is None and depth == 0 and path.endswith("Proof.antt") and word.endswith(("-spec", "_spec")):
                    answers.setdefault(path, set()).add(word)
                    continue
                names.setdefault(word, set()).add(path)
                if inside is not None:
                    fields.add(word)
    return names, fields, answers


def of_a_library(text, own):
    """The names that a file has from modules outside the repository."""
    found = set()
    for module, items in re.findall(r"use\s+([\w.]+)\.\{([^}]*)\}", text):
        if not (module.startswith("Rattle.") and module.split(".")[1] in own):
            found |= set(re.findall(WORD, " ".join(i.split(" as ")[0] for i in items.split(","))))
    return found


def turned(text, table, fields, keep=frozenset(), proof=False):
    def one(m):
        word = m[0]
        if word not in table or word in keep:
            return word
        if m.start() and text[m.start() - 1] == "." and proof and word not in fields:
            return word
        return table[word]

    return WORD.sub(one, text)


def comment(text, table):
    camel = {w: n for w, n in table.items() if "-" not in w}
    parts = re.split(r"(`[^`\n]*`)", text)
    return "".join(turned(p, table if p.startswith("`") else camel, set()) for p in parts)


def antt(text, table, fields, keep, proof):
    parts = re.split(r'("(?:[^"\\\n]|\\.)*"|(?<![^\s(){}.;,@"«»])--[^\n]*)', text)
    out = []
    for p in parts:
        if p.startswith('"'):
            out.append(p)
        elif p.startswith("--"):
            out.append(comment(p, table))
        else:
            p = re.sub(r"(?<![^\s{,])(" + WORD.pattern + r") as (" + WORD.pattern + r")", lambda m: alias(m, table), p)
            out.append(turned(p, table, fields, keep, proof))
    return "".join(out)


def alias(m, table):
    """`a as b` where both get one spelling is the plain name."""
    a, b = (table.get(w, w) for w in m.groups())
    return a if a == b else m[0]


def rt(text, table, fields, keep=frozenset()):
    parts = re.split(r'("(?:[^"\\\n]|\\.)*"|//[^\n]*)', text)
    return "".join(p if p.startswith('"') else comment(p, table) if p.startswith("//") else antt(p, table, fields, keep, False) for p in parts)


def edit(text, table, fields):
    lines = []
    for line in text.split("\n"):
        m = re.match(r"(old:|new:)(.*)$", line)
        lines.append(m[1] + rt(m[2], table, fields) if m else line)
    return "\n".join(lines)


def main(argv):
    names, fields, answers = declared()
    table = {w: snake(w) for w in names if wrong(w)}
    # a lemma that would have its definition's name
    taken = {n for w, n in table.items() if "-" not in w} | {w for w in names if not wrong(w)}
    for word in names:
        if "-" in word and word in table and word not in fields and table[word] in taken:
            table[word] += "_lem"
    table.update({w: w + "_lem" for w in ("all_right", "in_one")})
    # names given in an import or at a `ghost use` alone
    for path in glob.glob("crates/*/src/**/*.rt", recursive=True):
        with open(path, encoding="utf-8") as f:
            text = f.read()
        for item in re.findall(r"ghost use[^;]*;", text):
            for word in re.findall(r" as ([a-z]\w*)", item):
                if wrong(word):
                    table[word] = snake(word)
    if "--list" in argv:
        print("\n".join(f"{a}\t{b}" for a, b in sorted(table.items())))
        return
    if "--together" in argv:
        together(names, table)
        return
    own = {p.split("/")[1] for p in glob.glob("crates/*")}
    for path in antt_files():
        write(path, lambda t: antt(t, table, fields, answers.get(path, frozenset()) | (of_a_library(t, own) - {w for w in names if path in names[w]}), path.endswith("Proof.antt")))
    for path in glob.glob("crates/*/src/**/*.rt", recursive=True):
        write(path, lambda t: rt(t, table, fields, of_a_library(t, own)))
    for path in glob.glob("crates/*/must-fail/*.edit"):
        write(path, lambda t: edit(t, table, fields))


def write(path, change):
    with open(path, encoding="utf-8") as f:
        old = f.read()
    new = change(old)
    if new != old:
        with open(path, "w", encoding="utf-8") as f:
            f.write(new)


def together(names, table):
    back = {}
    for a, b in table.items():
        back.setdefault(b, []).append(a)
    for b, olds in sorted(back.items()):
        if len(olds) > 1 or b in names:
            print("names:", b, olds, "and itself" if b in names else "")
    words = {}
    for path in antt_files() + glob.glob("crates/*/src/**/*.rt", recursive=True):
        with open(path, encoding="utf-8") as f:
            text = re.sub(r"//[^\n]*", "", COMMENT.sub("", f.read()))
        for w in WORD.findall(text):
            words.setdefault(w, set()).add(path)
    for path in sorted(words and {p for ps in words.values() for p in ps}):
        here = {w for w, ps in words.items() if path in ps}
        for w in sorted(here):
            if w in table and table[w] in here:
                print(f"{path}: {w} and {table[w]}")


main(sys.argv[1:])
