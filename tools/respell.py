#!/usr/bin/env python3
"""Brings the repository's own definitions and lemmas to one spelling: functions, lemmas, fields and constructors in
snake case, types and facts in upper camel case. Run once, at the top, after the kit's own script for older repositories.

usage: python3 tools/respell.py           rewrites .antt files, the clauses of .rt files and must-fail edits of specs/ in place
       python3 tools/respell.py --list    prints the names with their new spelling and rewrites nothing

Names are taken from declarations in specs/ and proofs/: a name at the head of a line with its type (also in a module or behind
'where'), a record, a data type, their fields and constructors, a name given by 'as' (in .rt files too). Goals of functions
(declared by 'goal.') and steps of theirs (behind a dot) keep their names, and so do names of the code, strings and comments. Names that fall together in one file are printed, and nothing is written then.
"""

import os
import re
import sys

WORD = r"[^\s(){}\[\].,;\"«»@|=λ:]+"
HEAD = re.compile(rf"^(?:(?:pub|abbrev|unfoldable|opaque) )*({WORD})(?: ({WORD}))* : (.*)$")
TYPE = re.compile(rf"^\s*(?:pub )?(record|data) ({WORD})")
FIELD = re.compile(rf"^  +(?:pub )?({WORD}) : ")
NESTED = re.compile(rf"^ +(?:pub )?((?:{WORD} )*{WORD}) : ")
ALIAS = re.compile(rf" as ({WORD})(?=[,}};\s]|$)")
# Names that would fall together with another one.
OTHERWISE = {"signed-numeral": "numeral_of_signed", "read-on": "read_on_here", "put-mid": "put_mid_here"}
KEEP = {"record", "data", "where", "let", "in", "elim", "λ", "use", "pub", "module", "mod"}
COUNTED = re.compile(r"[A-Za-z]")


def antt_files(root):
    for folder, dirs, files in os.walk(os.path.join(root, "crates")):
        dirs[:] = sorted(d for d in dirs if d not in ("out", ".git"))
        for f in sorted(files):
            yield os.path.join(folder, f)


def new_name(old, is_type):
    if old.isupper() or not COUNTED.search(old):
        return old
    if is_type or old[0].isupper():
        return "".join(p[:1].upper() + p[1:] for p in re.split(r"-", old)) if "-" in old else old
    parts = re.sub(r"(?<=[a-z0-9])([A-Z])", r"-\1", old).split("-")
    return "_".join(p.lower() if p[:1].isupper() else p for p in parts)


def strip_comment(line):
    """The line without its comment; antt's comments begin with '--' and a space."""
    m = re.search(r"(^|\s)--(\s|$)", line)
    return line[: m.start()] if m else line


def declared(root):
    names = {}
    for path in antt_files(root):
        if path.endswith(".rt"):
            with open(path, encoding="utf-8") as f:
                for line in f:
                    if line.lstrip().startswith("ghost use "):
                        for m in ALIAS.finditer(line):
                            names.setdefault(m.group(1), set()).add("alias")
        if not path.endswith(".antt"):
            continue
        with open(path, encoding="utf-8") as f:
            lines = f.read().split("\n")
        kind = None
        for line in lines:
            line = strip_comment(line)
            for m in ALIAS.finditer(line):
                if line.lstrip().startswith(("use ", "pub use ")):
                    names.setdefault(m.group(1), set()).add("alias")
            t = TYPE.match(line)
            if t:
                names.setdefault(t.group(2), set()).add("type")
                kind = t.group(1)
                continue
            if line and not line[0].isspace():
                kind = None
                m = HEAD.match(line)
                if m and not m.group(3).startswith("goal."):
                    words = re.match(rf"^(?:(?:pub|abbrev|unfoldable|opaque) )*((?:{WORD} )*{WORD}) :", line).group(1).split()
                    for w in words:
                        if w not in KEEP:
                            names.setdefault(w, set()).add("value")
            elif kind:
                m = FIELD.match(line)
                if m:
                    names.setdefault(m.group(1), set()).add("field")
            m = NESTED.match(line) if line[:1].isspace() else None
            if m:
                words = m.group(1).split()
                if words[0] not in KEEP:
                    for w in words:
                        if "-" in w and re.search(rf"(?m)^ +{re.escape(w)}( .*)? =", "\n".join(lines)):
                            names.setdefault(w, set()).add("nested")
    return names


TOKEN = re.compile(WORD)
# Names that are declared in a module or behind 'where' alone; main fills it.
STEPS = set()


def turn(text, table):
    """Turns the words of the text. A name that is declared in a module or behind 'where' alone is none behind a dot: there it is a step."""

    def one(m):
        new = table.get(m.group(0))
        if new is None or (m.group(0) in STEPS and m.start() and text[m.start() - 1] == "."):
            return m.group(0)
        return new

    return TOKEN.sub(one, text)


def turn_antt(text, table):
    out = []
    for line in text.split("\n"):
        body = strip_comment(line)
        parts = re.split(r'("(?:[^"\\]|\\.)*")', body)
        out.append("".join(p if p.startswith('"') else turn(p, table) for p in parts) + line[len(body) :])
    return "\n".join(out)


def clauses(text):
    """Where clauses stand in a .rt file: ghost lines, and what stands in the braces of requires, ensures and ghost."""
    i = 0
    for m in re.finditer(r"(?m)^\s*(?:pub )?(?:ghost|requires|ensures)\b", text):
        if m.start() < i:
            continue
        j = m.end()
        if text[m.start() : j].strip().startswith(("ghost", "pub ghost")) and text[j : j + 4] == " use":
            k = text.index(";", j) + 1
        else:
            k = text.find("{", j)
            stop = re.search(r"[;\n]", text[j:])
            if k < 0 or (stop and text[j + stop.start()] == ";" and j + stop.start() < k):
                k = j
            else:
                depth = 0
                while True:
                    depth += {"{": 1, "}": -1}.get(text[k], 0)
                    k += 1
                    if depth == 0:
                        break
        yield m.start(), k
        i = k


def clause_tokens(text):
    for a, b in clauses(text):
        yield from TOKEN.findall(text[a:b])


def turn_rt(text, table):
    out, i = [], 0
    for a, b in clauses(text):
        out += [text[i:a], turn(text[a:b], table)]
        i = b
    out.append(text[i:])
    return "".join(out)


def main():
    root = os.getcwd()
    names = declared(root)
    table = {}
    STEPS.update(w for w, kinds in names.items() if kinds == {"nested"})
    for old, kinds in sorted(names.items()):
        new = OTHERWISE.get(old) or new_name(old, "type" in kinds)
        if new != old:
            table[old] = new
    if "--list" in sys.argv:
        for old, new in sorted(table.items()):
            print(f"{old}\t{new}\t{','.join(sorted(names[old]))}")
        return 0
    todo, fallen = [], []
    for path in antt_files(root):
        if not path.endswith((".antt", ".rt", ".edit")):
            continue
        with open(path, encoding="utf-8") as f:
            text = f.read()
        if path.endswith(".antt"):
            new = turn_antt(text, table)
        elif path.endswith(".rt"):
            new = turn_rt(text, table)
        elif text.startswith("file: specs/"):
            new = turn_antt(text, table)
        else:
            continue
        seen = {}
        for t in clause_tokens(text) if path.endswith(".rt") else TOKEN.findall("\n".join(strip_comment(l) for l in text.split("\n"))):
            seen.setdefault(table.get(t, t), set()).add(t)
        for n, olds in seen.items():
            if len(olds) > 1:
                fallen.append(f"{path}: {n}: {', '.join(sorted(olds))}")
        if new != text:
            todo.append((path, new))
    if fallen and "--anyway" not in sys.argv:
        print("\n".join(fallen))
        print(f"respell: {len(fallen)} places where names fall together; nothing was written")
        return 1
    for path, new in todo:
        with open(path, "w", encoding="utf-8") as f:
            f.write(new)
    print(f"respell: {len(table)} names, {len(todo)} files")
    return 0


sys.exit(main())
