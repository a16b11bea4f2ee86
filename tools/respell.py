#!/usr/bin/env python3
"""Respells the repository's own definitions, lemmas, fields and constructors in snake case, in sources, proofs and pages.

usage: tools/respell.py [--look]      at the top of the repository, once, after the kit's own script has turned the spelling of the language

`allTo` becomes `all_to` and `all-next` becomes `all_next`; types and modules keep their capitals. Functions of src/, exported names and strings keep
theirs: no function there has a capital or a dash. A name that the library declares too is the library's where a file imports it from there. In comments and
pages only what stands between backticks is respelt. --look writes nothing, and lists the names that would fall together in a file.
"""
import os
import re
import sys

WORD = re.compile(r"[^\s(){}\[\],;.«»\"`:]+")
DECLARED = re.compile(r"^\s*(?:unfoldable\s+)?(?:abbrev\s+)?(?:pub\s+)?([^\s(){}\[\],;.«»:\"]+)(?:\s+[({].*)?\s*:(?:\s|$)")
ALIAS = re.compile(r"\bas «?([A-Za-z0-9_'-]+)»?")
SNAKE = re.compile(r"^[a-z][A-Za-z0-9_'-]*$")


# A lemma that would have the name of the definition that it is about ends in `_lem`, and a field so in `_rule`.
LEMMAS = """and-then answer-frame answer-line bytes-lines call-by chart-ok due-before due-ok end-numbers frame-lines malformed-line maybe-owned mode-ok next-due
next-ok no-chain numbers-by of-input of-variable owner-ok partner-output put-value refers-as result-of run-output same-event sort-is uses-own value-by
variable-ok""".split()
FIELDS = "data-connection event-connection event-input event-output".split()
# The same of those that the kit's script has respelt, where they do not stand in a path.
SPELT = "count_by entry_frame flag_at input_ok passed_entry rest_ok run_store".split()
SPELT_IN = re.compile(r"(?<![\w.'-])(%s)(?![\w'-])" % "|".join(SPELT))


def snake(name):
    if name in LEMMAS:
        return name.replace("-", "_") + "_lem"
    if name in FIELDS:
        return name.replace("-", "_") + "_rule"
    name = re.sub(r"(?<=[a-z0-9])([A-Z])", lambda m: "_" + m.group(1).lower(), name)
    return name.replace("-", "_")


def files(root, ends):
    for folder, dirs, names in os.walk(root):
        dirs[:] = sorted(d for d in dirs if d not in ("out", "target", ".git"))
        for n in sorted(names):
            if n.endswith(ends):
                yield os.path.join(folder, n)


def is_walk(path):
    return path.endswith("/Proof.antt")


def declared():
    found = set()
    for path in files("crates", (".antt", ".rt")):
        with open(path, encoding="utf-8") as f:
            for line in f:
                if line.lstrip().startswith(("--", "//")):
                    continue
                found.update(ALIAS.findall(line))
                m = DECLARED.match(line)
                if m and path.endswith(".antt") and not is_walk(path):
                    found.add(m.group(1))
    return {n: snake(n) for n in found if SNAKE.match(n) and snake(n) != n and not n.endswith("-")}


def imported_from_elsewhere(text):
    """The names that a file takes from a library."""
    return {w for m in re.finditer(r"^(?:ghost )?(?:pub )?use ((?!Rattle\.(?:%s)\.)[\w.'◌·-]+)\.\{([^}]*)\}" % OURS, text, re.M) for part in m.group(2).split(",") for w in [part.split(" as ")[0].strip()]}


def respell_words(text, names):
    return WORD.sub(lambda m: names.get(m.group(0), m.group(0)), text)


def respell_ticks(text, names):
    return re.sub(r"`[^`\n]*`", lambda m: respell_words(m.group(0), names), text)


def respell_source(text, names, comment):
    out = []
    for line in text.splitlines(keepends=True):
        at = line.find(comment)
        code, said = (line, "") if at < 0 else (line[:at], line[at:])
        parts = re.split(r'("(?:[^"\\]|\\.)*")', code)
        if comment == "--":
            parts[::2] = [SPELT_IN.sub(r"\1_lem", p) for p in parts[::2]]
        parts[::2] = [respell_words(p, names) for p in parts[::2]]
        out.append("".join(parts) + respell_ticks(said, names))
    return "".join(out)


def fall_together(path, text, names):
    """Prints the names of a file that would be spelt as another of its names."""
    plain = re.sub(r"\bRattle\.[\w.'-]+", "", re.sub(r"(--|//).*$", "", text, flags=re.M))
    spelt = {}
    for w in set(WORD.findall(plain)):
        spelt.setdefault(names.get(w, w), set()).add(w)
    for new, old in sorted(spelt.items()):
        if len(old) > 1:
            print(f"{path}: {', '.join(sorted(old))}: {new}")


def main(argv):
    global OURS
    look = argv == ["--look"]
    OURS = "|".join(sorted(os.listdir("crates")))
    names = declared()
    for path in files("crates", (".antt", ".rt")):
        with open(path, encoding="utf-8") as f:
            text = f.read()
        here = {k: v for k, v in names.items() if k not in imported_from_elsewhere(text)}
        if look:
            fall_together(path, text, here)
            continue
        new = respell_source(text, here, "--" if path.endswith(".antt") else "//")
        if new != text:
            with open(path, "w", encoding="utf-8") as f:
                f.write(new)
    if look:
        print(len(names), "names")
        return
    for path in list(files("docs", (".md",))) + ["README.md", "CHANGELOG.md"]:
        with open(path, encoding="utf-8") as f:
            text = f.read()
        new = respell_ticks(text, names)
        if new != text:
            with open(path, "w", encoding="utf-8") as f:
                f.write(new)


main(sys.argv[1:])
