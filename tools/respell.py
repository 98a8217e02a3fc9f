#!/usr/bin/env python3
"""Brings the repository's own definitions and lemmas to snake case, once, after the kit's port.py and before any edit by hand.

    python3 tools/respell.py        at the top of the repository; rewrites files in place
    python3 tools/respell.py -n     writes nothing, prints each name with its new spelling, and the names that fall together

Renamed is what specs/*.antt and proofs/*.antt declare (definitions, lemmas, fields, constructors, local functions) with a dash or in lower camel
case. Names of the library that are imported keep their spelling in the files that import them. Functions of src/, modules, types, facts and what
stands in strings keep their names. Must-fail edits follow in their `old:` and `new:` lines; pages and tests in what stands between backticks or
behind the path of an .antt file.
"""
import os, re, sys

SPLIT = re.compile(r"([\s(){}\[\],;.:`\"|⌜⌝]+)")
DECL = re.compile(r"^(?:(?:abbrev|unfoldable|pub) )*([^\s(){},;.:=\"]+) :(?: |$)")
FIELD = re.compile(r"^\s+(?:(?:abbrev|unfoldable|pub) )*([^\s(){},;.:=\"]+) : ")
USE = re.compile(r"(?:^|\s)use ([\w.+·]+)\.\{([^}]*)\}")


def files(root, ends):
    for folder, dirs, names in os.walk(root):
        dirs[:] = sorted(d for d in dirs if d not in ("out", "target", ".git"))
        for name in sorted(names):
            if name.endswith(ends):
                yield os.path.join(folder, name)


def old(name):
    if "-" in name.strip("-"):
        return re.search(r"\w-\w", name) is not None and re.search(r"[^\w'-]", name) is None
    return re.search(r"[a-z0-9][A-Z]", name) is not None and name[0].islower()


def snake(name):
    name = name.replace("-", "_")
    return re.sub(r"(?<=[a-z0-9])([A-Z])(?=\w*)", lambda m: "_" + m.group(1).lower(), name) if name[0].islower() else name


def of_function(path):
    """Whether a file is of the proof of one function, and not of lemmas."""
    parts = path.split("/")
    return "proofs" in parts and len(parts) - parts.index("proofs") > 2


def declared():
    """What specs/ and the lemmas of proofs/ declare: at the head of a line, and within records, data and local functions."""
    tops, inner = {}, {}
    for path in files("crates", ".antt"):
        if of_function(path):
            continue
        for line in open(path, encoding="utf-8"):
            for form, found in ((DECL, tops), (FIELD, inner)):
                m = form.match(line)
                if m:
                    found.setdefault(m.group(1), path)
    return tops, inner


def new_names():
    """Each name with its new spelling. Where names fall together, the definition in camel case has the plain one and a lemma gets `_lem`;
    a field may have the name of a definition."""
    tops, inner = declared()
    groups, names, together = {}, {}, {}
    for n in {**inner, **tops}:
        groups.setdefault(snake(n) if old(n) else n, []).append(n)
    for s, ns in groups.items():
        chosen = next((n for n in ns if old(n) and "-" not in n), None) or next((n for n in ns if not old(n)), ns[0])
        for n in ns:
            name = s if n == chosen or n not in tops else s + "_lem"
            if name != n:
                names[n] = name
            if len(ns) > 1:
                together.setdefault(s, []).append((n, name, tops.get(n) or inner[n]))
    return names, together


def brought(text):
    """The names that a file brings in from outside the repository."""
    found = set()
    for m in USE.finditer(text):
        crate = re.match(r"Rattle\.(\w+)\.", m.group(1))
        if not (crate and os.path.isdir("crates/" + crate.group(1))):
            found |= {n.split(" as ")[-1].strip() for n in m.group(2).split(",")}
    return found


def respelled(text, names):
    return "".join(names.get(part, part) for part in SPLIT.split(text))


def main():
    names, together = new_names()
    if "-n" in sys.argv:
        for n, s in sorted(names.items()):
            print(n, s)
        for s, ns in sorted(together.items()):
            print("together:", s, ns)
        return
    for path in files("crates", (".antt", ".rt", ".edit")):
        text = open(path, encoding="utf-8").read()
        kept = brought(text)
        mine = {n: s for n, s in names.items() if n not in kept}
        if path.endswith(".edit"):
            new = "".join(respelled(l, mine) if l.startswith(("old:", "new:")) else l for l in text.splitlines(True))
        else:
            new = respelled(text, mine)
        if new != text:
            open(path, "w", encoding="utf-8").write(new)
    pages = [p for p in files(".", (".md", ".rs", ".c", ".h")) if not p.startswith("./crates/")]
    for path in pages:
        text = open(path, encoding="utf-8").read()
        new = re.sub(r"`[^`\n]+`", lambda m: respelled(m.group(0), names), text)
        new = re.sub(r"\.antt: [^`\n\"]+", lambda m: respelled(m.group(0), names), new)
        if new != text:
            open(path, "w", encoding="utf-8").write(new)


main()
