#!/usr/bin/env python3
"""Spells this repository's own definitions and lemmas in snake case, as 'pow2Scaled' and 'loop-same' to
'pow2_scaled' and 'loop_same'. Names that begin with a capital (types, facts, modules) stay.

usage: tools/respell.py [--list] [ROOT]

Run once, right after port.py. What is declared in a file of specs/ or proofs/ turns wherever its word stands:
in .antt files, in the clauses and ghost items of .rt files, in must-fail edits of .antt files and of clauses,
and in the documents' code spans. --list prints the new spellings and what would fall together, and writes nothing.
"""
import collections
import functools
import os
import re
import sys

NAME = r"[^\s(){}.;,@\"«»]+"
DECLARED = re.compile(r"(?m)^ *(?:(?:abbrev|unfoldable|pub) )*(" + NAME + r")(?: \{[^{}\n]*\})* :(?= |\n)")
COMMENT = re.compile(r"(?<![^\s(){}.;,@\"«»])--[^\n]*")
WORD = re.compile(r"(?<![^\s(){}.;,@\"«»\x60\[\]|])" + r"[^\s(){}.;,@\"«»\x60\[\]|]+")
# What the toolchain makes or the library declares, and this repository's texts cite or define for it.
STAY = re.compile(r"(invariant|decreases|copy|ghost)-|.*[◌μ+*]|Rattle$")
OWN_WORDS = {"getD-tab": "get_or_tab", "getD-stored": "get_or_stored", "are-bytes": "are_bytes_lem"}


def snake(name):
    if name in OWN_WORDS:
        return OWN_WORDS[name]
    words = re.sub(r"(?<=[a-z0-9])[A-Z]", lambda m: "_" + m[0].lower(), name.replace("NaN", "Nan"))
    return words.replace("-", "_")


def files(root):
    for folder, dirs, names in os.walk(os.path.join(root, "crates")):
        dirs[:] = [d for d in dirs if d not in ("out", "target")]
        for n in names:
            yield os.path.join(folder, n)


def in_function(path):
    """A proof file of one function, not a file of lemmas."""
    return re.search(r"/proofs/.+/(Proof|Answers|Invariants)\.antt$", path) is not None


class Names(dict):
    together = frozenset()


def table(root):
    names = Names()
    for path in files(root):
        if path.endswith(".antt"):
            with open(path, encoding="utf-8") as f:
                text = COMMENT.sub("", f.read())
            for m in DECLARED.finditer(text):
                old = m[1]
                if not old[0].islower():
                    continue
                if STAY.match(old) or in_function(path) and "-" in old:
                    continue
                new = snake(old)
                if new != old:
                    names[old] = new
    spelled = {new for old, new in names.items() if "-" not in old}
    names.together = frozenset(old for old, new in names.items() if "-" in old and new in spelled)
    for old in names.together:
        names[old] += "_lem"
    return names


def turn(text, names, steps=False):
    """In a function's proof (steps) what stands behind a dot may be a step of the code: such a word gets no _lem."""

    def respelled(m):
        behind_dot = m.start() > 0 and text[m.start() - 1] == "."
        new = names.get(m[0], m[0])
        return new[: -len("_lem")] if steps and behind_dot and m[0] in names.together else new

    return WORD.sub(respelled, text)


def turn_antt(text, names, steps=False):
    """Code, and in comments the code spans and words with a capital inside."""
    parts, at = [], 0
    for m in COMMENT.finditer(text):
        parts += [turn(text[at : m.start()], names, steps), turn_comment(m[0], names)]
        at = m.end()
    return "".join(parts + [turn(text[at:], names, steps)])


IMPORTED = re.compile(r"(?m)^use (\S+?)\.\{([^}]*)\}")


def lent(text, root):
    """The names that a file has from another's library."""
    own = set(os.listdir(os.path.join(root, "crates")))
    found = set()
    for m in IMPORTED.finditer(text):
        steps = m[1].split(".")
        if steps[0] != "Rattle" or steps[1] not in own:
            found |= {n.split(" as ")[0].strip() for n in m[2].split(",")}
    return found


def turn_rt(text, names):
    lines, inside = [], False
    for line in text.split("\n"):
        begins = re.match(r" *(requires|ensures|ghost)\b", line)
        if begins:
            depth = 0
            inside = True
        if inside:
            line = turn(line, names)
            depth += line.count("{") - line.count("}")
            if depth <= 0 and (";" in line or "}" in line):
                inside = False
        lines.append(line)
    return "\n".join(lines)


def turn_comment(text, names):
    return re.sub(r"\b[a-z]+[A-Z]\w*", lambda m: names.get(m[0], m[0]), turn_md(text, names))


def turn_md(text, names):
    return re.sub(r"`[^`\n]+`", lambda m: turn(m[0], names), text)


def main(words):
    listing = "--list" in words
    words = [w for w in words if w != "--list"]
    root = words[0] if words else "."
    names = table(root)
    if listing:
        by_new = collections.defaultdict(set)
        for old, new in names.items():
            by_new[new].add(old)
        seen = collections.defaultdict(set)
        for path in files(root):
            if path.endswith((".antt", ".rt")):
                with open(path, encoding="utf-8") as f:
                    for w in set(WORD.findall(COMMENT.sub("", f.read()))):
                        seen[w].add(path)
        for new, olds in sorted(by_new.items()):
            print(f"{' '.join(sorted(olds))} -> {new}")
            if len(olds) > 1:
                print("  TOGETHER:", *olds)
            for old in olds:
                both = {p for p in seen[old] & seen.get(new, set()) if p.endswith(".antt")}
                if both:
                    print("  BESIDE:", *sorted(both)[:4])
        return
    for path in files(root):
        if path.endswith(".antt"):
            how = functools.partial(turn_antt, steps=in_function(path))
        elif path.endswith(".rt"):
            how = turn_rt
        elif path.endswith(".edit"):
            with open(path, encoding="utf-8") as f:
                how = turn if re.search(r"(?m)^file: .*\.antt$", f.read()) else turn_edit
        else:
            continue
        kept = names
        if path.endswith(".antt"):
            with open(path, encoding="utf-8") as f:
                others = lent(f.read(), root)
            kept = Names((old, new) for old, new in names.items() if old not in others)
            kept.together = names.together
        write(path, how, kept)
    for folder, dirs, found in os.walk(root):
        dirs[:] = [d for d in dirs if d not in (".git", "out", "target")]
        for n in found:
            if n.endswith(".md"):
                write(os.path.join(folder, n), turn_md, names)


def turn_edit(text, names):
    return "\n".join(turn(l, names) if re.search(r"\b(requires|ensures)\b", l) else l for l in text.split("\n"))


def write(path, how, names):
    with open(path, encoding="utf-8") as f:
        old = f.read()
    new = how(old, names)
    if new != old:
        with open(path, "w", encoding="utf-8") as f:
            f.write(new)


if __name__ == "__main__":
    main(sys.argv[1:])
