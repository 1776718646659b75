#!/usr/bin/env python3
"""Respells the repository's own definitions and lemmas: facts and types in upper camel case, the rest in snake case.

usage: python3 tools/respell.py [--list]     at the top, once, after the kit's port.py

A lemma whose name is one function applied to another joins them by a dash, as length-drop. Names of src/ and names that
Rattle makes (goals, steps of a proof) are left alone. --list prints the names, old and new, and changes nothing.
"""

import os
import re
import sys

SIGNATURE = re.compile(r"^(\s*)((?:abbrev |unfoldable )?(?:pub )?(?:data |record )?)([^\s(){}:;,.|]+)\s*((?:\([^)]*\)|\{[^}]*\})\s*)*:(?:\s|$)(.*)")
TOKEN = re.compile(r"[^\s(){}\[\],;.λ]+")
LIBRARY = {"length", "take", "drop", "append", "set", "replicate", "fold", "map", "mapped"}
# functions of which lemmas tell something at another function's result
HEADS = {"length", "get_or", "count_by", "number"}
PARTS = {"getD": "get_or", "countBy": "count_by", "ltb": "nat_lt", "leb": "nat_le"}
# facts whose names are lower case words, with the module that defines them
FACTS = {"pushed": "Pushed", "popped": "Popped", "added": "Added", "keyed": "Keyed", "echoed": "Echoed", "label_kept": "LabelKept"}
FACTS_OF = {"pushed": "ring.specs.Ring", "popped": "ring.specs.Ring", "added": "host.specs.Host", "keyed": "host.specs.Host", "echoed": "host.specs.Host", "label_kept": "host.specs.Label"}
# a definition that has the name of what a clause calls the returned value
RESULT = "Rattle.verifier.specs.Numbering"


def files_of(root, ending):
    for folder, dirs, files in os.walk(os.path.join(root, "crates")):
        dirs[:] = sorted(d for d in dirs if d != "out")
        for f in sorted(files):
            if f.endswith(ending):
                yield os.path.join(folder, f)


def read(path):
    with open(path, encoding="utf-8") as f:
        return f.read()


def definitions(root):
    """Each name with whether it is a type, whether it is a field, and whether specs/ defines it."""
    found, goals = {}, set()
    for path in files_of(root, ".antt"):
        record_indent = None
        for line in read(path).split("\n"):
            if line.strip().startswith("--"):
                continue
            indent = len(line) - len(line.lstrip())
            if record_indent is not None and line.strip() and indent <= record_indent:
                record_indent = None
            m = SIGNATURE.match(line)
            if not m:
                continue
            name, words, rest = m.group(3), m.group(2), m.group(5)
            if re.match(r"\s*goal\.", rest):
                goals.add(name)
                continue
            is_type = "record " in words or "data " in words or bool(re.search(r"Type 0( where)?$", line))
            is_field = record_indent is not None
            old = found.get(name, (False, False, False))
            found[name] = (old[0] or is_type, old[1] or is_field, old[2] or "/specs/" in path)
            if "record " in words:
                record_indent = indent
    for g in goals:
        found.pop(g, None)
    return found


def camel(name):
    parts = [p for p in re.split(r"[-_]", name) if p]
    return "".join(p[0].upper() + p[1:] for p in parts)


def snake(name):
    return "_".join(PARTS.get(p, p) for p in name.split("-"))


def lemma(name, known):
    """One of the HEADS applied to a known name: joined by a dash. A fact at the head keeps its capital. All else in snake case."""
    head, _, rest = name.partition("-")
    head = PARTS.get(head, head)
    first = next((p for p in range(len(name.split("-")) - 1, 0, -1) if "-".join(name.split("-")[:p]) in known and name[0].isupper()), 0)
    if first:
        parts = name.split("-")
        return known["-".join(parts[:first])] + "-" + "_".join(parts[first:])
    if head in HEADS and rest.split("-")[0] in known:
        return head + "-" + snake(rest)
    return snake(name)


def names(root):
    found = definitions(root)
    new = dict(FACTS)
    known = {w: w for w in LIBRARY}
    for n, (is_type, is_field, in_specs) in found.items():
        if is_type:
            if "-" in n or (n[0].isupper() and "_" in n):
                new[n] = camel(n)
            known[n] = new.get(n, n)
    for n, (is_type, is_field, in_specs) in found.items():
        if in_specs and not is_type and n not in FACTS:
            if "-" in n:
                new[n] = snake(n)
            if len(n) > 2:
                known[n] = new.get(n, n)
    for n, (is_type, is_field, in_specs) in found.items():
        if "-" in n and n not in new:
            new[n] = snake(n) if is_field else lemma(n, known)
    # a fact of a type that begins with its name in lower case, as recorder-kept, is named after the type
    for n, (is_type, _, _) in found.items():
        if is_type and n[0].islower() and n not in FACTS:
            new[n] = camel(n)
    return found, {n: w for n, w in new.items() if n != w}


def aliases(text):
    return set(re.findall(r"\bas ([a-z][\w]*)", text)) - {"goal", "given"}


def turn_line(text, new, fields, module_names):
    def replaced(m):
        word = m.group(0)
        if word not in new:
            return word
        at = m.start()
        if at and text[at - 1] == ".":
            before = re.search(r"([^\s(){}\[\],;.λ]+)\.$", text[:at])
            if before and before.group(1) in module_names:
                return new[word]
            return new[word] if word in fields else word
        return new[word]

    return TOKEN.sub(replaced, text)


CLAUSE = re.compile(r"^(\s*)ensures\* \{ λ r\. ⌜ r ≡ (.*) ⌝ \}$")


def turn_result(path, text):
    """The definition `result` of the sheet's rule gets another name, so that `result` is the returned value in each clause."""
    if RESULT not in text and not path.endswith("verifier/specs/Numbering.antt"):
        return text
    if path.endswith(".rt"):
        lines = []
        for line in text.split("\n"):
            m = CLAUSE.match(line)
            if m:
                line = m.group(1) + "ensures { result ≡ " + re.sub(r"(?<![\w.'-])result(?![\w'-])", "depth_after", m.group(2)) + " }"
            elif line.startswith("ghost use " + RESULT):
                line = re.sub(r"(?<![\w.'-])result(?![\w'-])", "depth_after", line)
            lines.append(line)
        return "\n".join(lines)
    imports = re.search(r"^use " + re.escape(RESULT) + r"\.\{([^}]*)\}", text, re.M)
    if path.endswith("specs/Numbering.antt") or imports and "result" in re.split(r",\s*", imports.group(1)):
        return re.sub(r"(?<![\w.'-])result(?![\w'-])", "depth_after", text)
    return text


def facts_elsewhere(path, text):
    """The facts that this file neither defines nor imports: there the word is another's name."""
    out = set()
    for n, module in FACTS_OF.items():
        imports = re.findall(r"use Rattle\." + re.escape(module) + r"\.\{([^}]*)\}", text)
        at_home = path.endswith(module.replace(".", "/") + ".antt")
        if not at_home and not any(n in re.split(r",\s*", i) for i in imports):
            out.add(n)
    return out


def main():
    root = os.getcwd()
    found, new = names(root)
    fields = {n for n, (_, is_field, _) in found.items() if is_field}
    if "--list" in sys.argv:
        for n in sorted(new):
            print(n, new[n])
        return
    for path in list(files_of(root, ".antt")) + list(files_of(root, ".rt")):
        text = read(path)
        elsewhere = facts_elsewhere(path, text)
        here = {n: w for n, w in new.items() if n not in elsewhere}
        text2 = turn_result(path, text)
        dashed = {n: w for n, w in here.items() if "-" in n or "_" in n}
        if path.endswith(".antt"):
            text2 = "\n".join(turn_line(line, dashed if line.lstrip().startswith("--") else here, fields, aliases(text2)) for line in text2.split("\n"))
        else:
            out = []
            for line in text2.split("\n"):
                is_clause = re.match(r"\s*(ghost |requires|ensures|//!?|///)", line) and not re.match(r"\s*//", line) or "⌜" in line
                out.append(turn_line(line, here if is_clause else dashed, fields, aliases(text)))
            text2 = "\n".join(out)
        if text2 != text:
            with open(path, "w", encoding="utf-8") as f:
                f.write(text2)


if __name__ == "__main__":
    main()
