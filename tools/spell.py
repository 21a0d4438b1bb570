#!/usr/bin/env python3
"""Brings the names of this repository's own definitions and lemmas to the spelling of today's Rattle, once: words in snake
case, types in camel case, and a dash only between two names.

usage: python3 tools/spell.py [--list]     at the top, after port.py; --list prints the renamings and writes nothing

It reads the names that crates/*/specs and the files right in crates/*/proofs declare. Functions of src/, exported names, strings,
inputs and outputs are left alone. Two names of one spelling stop it before it writes.
"""
import glob
import re
import sys

WORD = r"[^\s(){}\[\];,.`\"λ@|⟨⟩]+"
def read(path):
    with open(path, encoding="utf-8") as f:
        return f.read()


def declared():
    """Each declared name, with whether it is a type."""
    found = {}
    files = glob.glob("crates/*/specs/**/*.antt", recursive=True) + glob.glob("crates/*/proofs/*.antt")
    for path in sorted(files):
        for line in read(path).splitlines():
            m = re.match(r"\s*((?:abbrev|unfoldable|pub|record|data|mod|use|module|infix\w*) )*(" + WORD + r")((?: [({].*[)}])*) :(.*)", line)
            if not m or line.lstrip().startswith("--") or m.group(2) in ("use", "mod", ":"):
                continue
            if re.match(r"\s*(use|mod|pub mod|pub use|module|infix)", line):
                continue
            name = m.group(2)
            if "◌" in name or not re.match(r"[A-Za-z]", name):
                continue
            kind = bool(re.search(r"(^|→ )\s*Type \d( where)?$", m.group(4).strip()))
            found.setdefault(name, []).append((path, kind))
    return found


def snake(word):
    if word[:1].isupper():
        return word
    return re.sub(r"([a-z0-9])([A-Z])", lambda m: m.group(1) + "_" + m.group(2).lower(), word).lower()


OLDER = {"getD": "get_or", "upTo": "up_to"}


def renamings(found):
    plain = {snake(n) for n in found if "-" not in n and any("/specs/" in path for path, _ in found[n])} | LIBRARY
    out = {}
    for name in found:
        parts = [OLDER.get(p, snake(p)) for p in name.split("-")]
        new = parts[0]
        for before, part in zip(parts, parts[1:]):
            new += ("-" if before in plain and part in plain else "_") + part
        if new != name:
            out[name] = new
    out.update({a: snake(a) for a in ALIASES})
    # a lemma that would have a definition's name is told from it by its ending
    spelled = {out.get(n, n) for n in found if is_definition(found, n)}
    for name in found:
        if not is_definition(found, name) and out.get(name, name) in spelled:
            out[name] = out.get(name, name) + "_lem"
    return out


def is_definition(found, name):
    return any("/specs/" in path for path, _ in found[name]) or bool(re.fullmatch(r"[a-z]+[A-Z]\w*", name))


# words of the library that names of lemmas have, as the files right in proofs/ and specs/ import them
LIBRARY = {"le", "lt", "eq", "zero", "one", "suc"}
# other names for imported ones
ALIASES = set()


def library():
    for path in glob.glob("crates/*/specs/**/*.antt", recursive=True) + glob.glob("crates/*/proofs/*.antt"):
        for line in read(path).splitlines():
            m = re.match(r"use ([\w.]+)\.\{(.*)\}", line)
            if m and not re.match(r"Rattle\.(?!std\.)", m.group(1)):
                LIBRARY.update(w.strip().split(" ")[0] for w in m.group(2).split(",") if re.match(r"\s*[a-z]", w))
            ALIASES.update(a for a in re.findall(r" as ([a-z]+[A-Z]\w*)", line))


def clash(found, new):
    seen, bad = {}, []
    for name in found:
        seen.setdefault(new.get(name, name), set()).add(name)
    for spelled, names in sorted(seen.items()):
        if len(names) > 1:
            bad.append(f"{spelled}: {', '.join(sorted(names))}")
        elif spelled in LIBRARY and names != {spelled}:
            bad.append(f"{spelled}: {', '.join(names)} and the library's")
    return bad


def turn(text, new, path):
    camel = {a: b for a, b in new.items() if re.search("[a-z0-9][A-Z]", a)}
    aliases = set(re.findall(r" as (\w+)", text))

    def words(part, names, dots):
        def one(m):
            w = m.group(0)
            if w not in names:
                return w
            at = m.start()
            if at and part[at - 1] == "." and not dots and w not in camel:
                head = re.search(r"([\w'-]+)\.$", part[:at])
                if not head or head.group(1) not in aliases:
                    return w
            return names[w]
        return re.sub(WORD, one, part)

    out = []
    for line in text.split("\n"):
        mark = {"rt": "//", "antt": "--"}.get(path.rsplit(".", 1)[-1])
        code, comment = line, ""
        if mark and mark in line:
            at = re.search(r"(^|\s)" + mark + r"(\s|$)", line)
            if at:
                code, comment = line[:at.start()], line[at.start():]
        if path.endswith((".md", ".txt")):
            code, comment = "", line
        if path.endswith(".rt"):
            parts = re.split(r"(\"(?:[^\"\\]|\\.)*\")", code)
            code = "".join(p if i % 2 else words(p, new if "ghost use" in p else camel, "ghost use" in p) for i, p in enumerate(parts))
        elif path.endswith(".edit"):
            code = words(code, new, False) if re.match(r"(old|new):", code) else code
        else:
            code = words(code, new, bool(re.match(r"\s*(pub )?use ", code)))
        comment = words(comment, camel, True)
        comment = re.sub(r"`([^`]*)`", lambda m: "`" + words(m.group(1), new, False) + "`", comment)
        out.append(code + comment)
    return "\n".join(out)


def main():
    library()
    found = declared()
    new = renamings(found)
    bad = clash(found, new)
    if "--list" in sys.argv:
        for a, b in sorted(new.items()):
            print(a, b)
        low = sorted(n for n, where in found.items() if n[0].islower() and any(k for _, k in where))
        print("types in small letters:", *low)
    if bad:
        print("one spelling for two:", *bad, sep="\n  ")
        return 1
    if "--list" in sys.argv:
        return 0
    files = [p for e in ("rt", "antt", "edit") for p in glob.glob(f"crates/**/*.{e}", recursive=True) if "/out/" not in p]
    for path in files + glob.glob("docs/**/*.md", recursive=True) + glob.glob("*.md") + glob.glob("*/README.md"):
        text = read(path)
        after = turn(text, new, path)
        if after != text:
            with open(path, "w", encoding="utf-8") as f:
                f.write(after)
    return 0


if __name__ == "__main__":
    raise SystemExit(main())
