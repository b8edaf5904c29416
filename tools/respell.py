#!/usr/bin/env python3
"""Respells the repository's own definitions and lemmas: words in snake case, facts and types in camel case.

usage: python3 tools/respell.py [--list]     at the top of a repository that port.py has turned

A name that specs/ or proofs/ define and that has a dash is respelled wherever it stands: `block-of` is `block_of`, `Proper-entry` is `ProperEntry`.
Names that Rattle makes (goals, steps) and names of its library keep theirs. Functions, strings and comments keep theirs too, but for a name
between backticks. The library's `AllByRecursion` goes by its own name, where port.py brought it in as `All`, which is another word today.
With --list it only says what it would do, and where two names would fall together.
"""

import os
import re
import sys

IDENT = r"[^\s(){}\[\];,.:⟨⟩⌜⌝`\"]+"
MADE = re.compile(r":\s*(goal|need|given|needs)\b")
PROOF_FILES = {"Answers.antt", "Invariants.antt", "Choices.antt", "Proof.antt"}


def files(root, ends):
    for folder, dirs, names in os.walk(root):
        dirs[:] = sorted(d for d in dirs if d not in ("out", "target", ".git"))
        for n in sorted(names):
            if n.endswith(ends):
                yield os.path.join(folder, n)


def read(path):
    with open(path, encoding="utf-8") as f:
        return f.read()


def defined(root):
    """The names that the repository defines, and the files that define each."""
    found = {}

    def add(name, path):
        found.setdefault(name, set()).add(os.path.relpath(path, root))

    for path in files(os.path.join(root, "crates"), ".antt"):
        in_proof = os.path.basename(path) in PROOF_FILES and f"{os.sep}proofs{os.sep}" in path
        body = False
        for line in re.sub(r"--.*", "", read(path)).splitlines():
            if re.match(r"\S", line):
                body = False
            if line.startswith(("use ", "pub use ", "mod ", "pub mod ", "unfolding")):
                continue
            inner = re.match(rf"\s+(?:pub\s+)?(?:record|data)\s+({IDENT})", line)
            if inner:
                add(inner.group(1), path)
                continue
            head = re.match(rf"((?:(?:unfoldable|abbrev|pub|data|record|ruleset)\s+)*)({IDENT})(.*)", line)
            if head and re.match(r"\S", line):
                words, name, rest = head.groups()
                body = "record" in words or "data" in words
                declared = body or "ruleset" in words or re.match(r"\s*:", rest)
                if declared and not (in_proof and MADE.search(line)):
                    add(name, path)
            elif body or re.match(rf"\s+(?:(?:pub|abbrev|unfoldable)\s+)*[A-Za-z][^\s(){{}}\[\];,.:]*\s*:\s", line):
                field = re.match(rf"\s+(?:(?:pub|abbrev|unfoldable)\s+)*({IDENT}(?:\s+{IDENT})*)\s*:", line)
                if field:
                    for name in field.group(1).split():
                        add(name, path)
    return found


def library_names(root):
    """Names that a file takes from Rattle's own library: a line of its own, from std, Prim, mathlib or lib."""
    taken = set()
    for path in files(os.path.join(root, "crates"), (".antt", ".rt")):
        for items in re.findall(r"use (?:Rattle\.std|Prim|mathlib|lib|borrow|denote|logic)[^;{\n]*\.\{([^}]*)\}", read(path)):
            taken.update(x.split(" as ")[0].strip() for x in items.split(","))
    return taken


def respelled(name):
    if not re.search(r"[-_]", name.strip("-_")) or not re.match(r"[A-Za-z]", name) or name.isupper():
        return name
    parts = re.split(r"[-_]", name)
    if name[0].isupper():
        return "".join(p[:1].upper() + p[1:] for p in parts)
    return "_".join(parts)


def bound(text, library):
    """Names with a dash that a file binds for itself: by a binder, a let, a λ or the left side of a clause."""
    code = re.sub(r"--.*", "", text)
    words = []
    words += re.findall(r"[({]([^(){}:]+?)\s*:\s", code)
    words += re.findall(r"\blet ([^\s:=(]+)\s*[:=]", code)
    words += re.findall(r"λ ([^.(]+)\.", code)
    words += re.findall(r"(?m)^\s*[A-Za-z][^\s:=]*((?:\s[^=:]*)?)\s=(?:\s|$)", code)
    found = {w for group in words for w in re.findall(IDENT, group)}
    return {w: respelled(w) for w in found if re.fullmatch(r"[A-Za-z][A-Za-z0-9']*(-[A-Za-z0-9']+)+", w) and w not in library}


def turn_tokens(text, names):
    return re.sub(IDENT, lambda m: names.get(m.group(0), m.group(0)), text)


def turn_ticks(text, names):
    return re.sub(r"`[^`\n]*`", lambda m: turn_tokens(m.group(0), names), text)


def turn_antt(text, names):
    out = []
    for line in text.split("\n"):
        at = line.find("--")
        code, note = (line, "") if at < 0 else (line[:at], line[at:])
        out.append(turn_tokens(code, names) + turn_ticks(note, names))
    return "\n".join(out)


def turn_rt(text, names):
    """Only ghost lines and what stands in braces after requires, ensures or ghost; strings and comments as they are."""
    out, depth = [], 0
    for line in text.split("\n"):
        if line.lstrip().startswith("//"):
            out.append(turn_ticks(line, names))
            continue
        if depth or re.match(r"\s*(pub )?(ghost|requires|ensures)\b", line):
            depth += line.count("{") - line.count("}")
            out.append(turn_tokens(line, names))
        else:
            out.append(line)
    return "\n".join(out)


def own_word(text):
    """AllByRecursion under its own name, in a file that brought it in as All."""
    if "AllByRecursion as All" not in text:
        return text
    text = text.replace("AllByRecursion as All", "AllByRecursion")
    return re.sub(rf"(?<![\w'.-])All(?![\w'-])", "AllByRecursion", text)


def main(argv):
    root = os.getcwd()
    found = defined(root)
    library = library_names(root)
    names = {n: respelled(n) for n in found if respelled(n) != n}
    for n in sorted(names):
        if n in library:
            print(f"of the library too, left: {n}: {sorted(found[n])}")
            del names[n]
    new = {}
    for n in found:
        new.setdefault(names.get(n, n), set()).add(n)
    for n, old in sorted(new.items()):
        if len(old) > 1:
            where = [found[o] for o in sorted(old)]
            print(f"would fall together: {sorted(old)} as {n}: {[sorted(w) for w in where]}")
        if n in library and any(o in names for o in old):
            print(f"would be a name of the library: {sorted(old)} as {n}")
    if "--list" in argv:
        for n in sorted(names):
            print(n, names[n])
        return
    for ends, turn in ((".antt", turn_antt), (".rt", turn_rt), (".edit", turn_tokens)):
        for path in files(os.path.join(root, "crates"), ends):
            text = read(path)
            local = bound(text, library) if ends == ".antt" and os.path.basename(path) not in PROOF_FILES else {}
            made = own_word(turn(text, {**local, **names}))
            if made != text:
                with open(path, "w", encoding="utf-8") as f:
                    f.write(made)
    for path in files(root, ".md"):
        text = read(path)
        made = turn_ticks(text, names)
        if made != text:
            with open(path, "w", encoding="utf-8") as f:
                f.write(made)
    print(f"{len(names)} names respelled")


main(sys.argv[1:])
