#!/usr/bin/env python3
"""Brings the repository's own definitions and lemmas to today's spelling: words in snake case, types in camel case.

Run it once, at the top, right after the kit's port.py. A dash stays where a lemma's name begins with the call on its left
side, as `length-hidden`. Functions, strings and comments of src/ keep their words; a name that a file imports from the kit stays.
It prints the names that it turned, and stops if two names would fall together.
"""

import os
import re
import sys

CRATES = sorted(os.listdir("crates"))
OWN = re.compile(r"Rattle\.(" + "|".join(CRATES) + r")\.(specs|proofs)\b")
MADE = re.compile(r"\.(declared|contracts|Goals|Given|Lts)\b|\.(Goals|Given|Lts)$")
WORD = r"[^\s(){}\[\].;,]"
DEFINED = re.compile(r"\s*(?:pub\s+|abbrev\s+|unfoldable\s+)*(?:record\s+|data\s+)?(" + WORD + r"+)\s*(?:\([^:]*:[^)]*\)\s*|\{[^:]*:[^}]*\}\s*)*:\s")
USE = re.compile(r"\s*(?:pub\s+|ghost\s+)*use\s+([\w.+'-]+?)(?:\.\{(.*)\})?;?\s*$")
CALLS = ("length-", "get_or-")
# generated names that answers define
ANSWERS = re.compile(r"^(returns|invariant|decreases|ghost|loop)(-|$)|-(requires|init|preserved|smaller)(-|$)|^(overflow|bounds|slice_bounds|nonzero|branch)|^invariant_of")


def texts():
    for folder, dirs, files in os.walk("crates"):
        dirs[:] = sorted(d for d in dirs if d != "out")
        for name in sorted(files):
            if name.endswith((".antt", ".rt", ".edit")):
                yield os.path.join(folder, name)


def read(path):
    with open(path, encoding="utf-8") as f:
        return f.read()


def code(line):
    return re.sub(r"(^|\s)--(\s.*)?$", "", line)


def imports(line):
    found = USE.match(line)
    if not found or not found.group(2):
        return None, []
    return found.group(1), [n.split(" as ")[0].strip() for n in found.group(2).split(",")]


def aliases(line):
    return re.findall(r"\bas (" + WORD + r"+)", line) if USE.match(line) else []


def defined():
    names = {}
    for path in texts():
        if path.endswith(".rt"):
            for line in read(path).splitlines():
                if line.lstrip().startswith("ghost use"):
                    for name in aliases(line.rstrip(";")):
                        names.setdefault(name, set()).add(path)
        if not path.endswith(".antt"):
            continue
        answers = os.path.basename(path) in ("Answers.antt", "Invariants.antt", "Proof.antt")
        for line in read(path).splitlines():
            line = code(line)
            for name in aliases(line):
                names.setdefault(name, set()).add(path)
            if USE.match(line):
                continue
            found = DEFINED.match(line)
            if not found:
                continue
            name = found.group(1)
            if answers and (ANSWERS.search(name) or "goal." in line or "given." in line):
                continue
            names.setdefault(name, set()).add(path)
            if "record {" not in line:
                continue
    return names


def turned(name):
    name = name.replace("getD", "get_or")
    for call in CALLS:
        if name.startswith(call):
            return call + name[len(call):].replace("-", "_")
    if name[0].isupper():
        return "".join(part[0].upper() + part[1:] for part in re.split("[-_]", name))
    return name.replace("-", "_")


def main():
    names = defined()
    renames = {n: turned(n) for n in names if n != turned(n)}
    tokens = {}
    kept = {}
    for path in texts():
        if path.endswith(".rt"):
            tokens[path] = set(re.findall(r"\w+", read(path)))
        if path.endswith(".antt"):
            text = "\n".join(code(l) for l in read(path).splitlines())
            # a function's own name in a path of its proofs is no name of ours
            tokens[path] = set(re.findall(WORD + "+", "\n".join(l for l in text.splitlines() if not USE.match(l))))
            kept[path] = set()
            for line in text.splitlines():
                where, what = imports(line)
                if where and (not OWN.match(where + ".") or MADE.search(where)):
                    kept[path] |= set(what)
    into = {}
    for old, new in renames.items():
        into.setdefault(new, []).append(old)
    bad = False
    for new, olds in sorted(into.items()):
        there = sorted(p for p in tokens if new in tokens[p])
        if len(olds) > 1 or there:
            print(f"falls together: {', '.join(olds)} -> {new}: {there[:6]}")
            bad = True
    if bad and "--anyway" not in sys.argv:
        return 1
    each = re.compile(r"(?<![^\s(){}\[\].;,←])(" + "|".join(re.escape(n) for n in sorted(renames, key=len, reverse=True)) + r")(?![^\s(){}\[\].;,])")
    for path in texts():
        lines = read(path).split("\n")
        out = []
        for line in lines:
            if path.endswith(".antt"):
                body = code(line)
                rest = line[len(body):]
            elif path.endswith(".rt"):
                cut = line.find("//") if "//" in line else len(line)
                body, rest = line[:cut], line[cut:]
                if '"' in body:
                    body, rest = "", line
            else:
                body, rest = line, ""
            skip = kept.get(path, set())
            where, _ = imports(body)
            if where and (not OWN.match(where + ".") or MADE.search(where)):
                # an import of the kit's: only a name given after `as` is ours
                body = re.sub(r"(?<= as )" + WORD + "+", lambda m: renames.get(m.group(0), m.group(0)), body)
            else:
                body = each.sub(lambda m: m.group(1) if m.group(1) in skip else renames[m.group(1)], body)
            out.append(body + rest)
        if out != lines:
            with open(path, "w", encoding="utf-8") as f:
                f.write("\n".join(out))
    for old, new in sorted(renames.items()):
        print(f"{old} -> {new}")
    return 0


if __name__ == "__main__":
    raise SystemExit(main())
