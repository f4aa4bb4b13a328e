"""Counts the places in the sources that an older form may have left.

    python3 tools/places.py [-v] [FOLDER]

FOLDER is a checkout (here: the one this script is in). -v prints each place with its line. docs/DESIGN-PASS.md says
what each kind means and what became of each place.
"""
import glob
import os
import re
import sys

NAMES = {
    "1a": "let-else that only passes a None or an Err on",
    "1b": "match that only passes on or re-wraps an Option or a Result",
    "1c": "Option of a refusal as the answer of a test",
    "1d": "test for Some or Err and a return, by hand",
    "1e": "number in place of a refusal or a fault",
    "1f": "number in place of a kind",
    "1g": "own enum of the shape of Option or Result",
    "1h": "flag with a value beside it",
    "3a": "range loop whose number indexes a table, or counts its entries",
    "3b": "while loop",
    "3c": "search of a slice written out",
    "3d": "fill of a slice written out",
    "3e": "number counted by hand beside a loop",
    "3f": "range up to a number plus one",
    "3g": "fold of a slice into a value that each turn replaces, written out",
    "4a": "conversion by a function of its own",
    "4b": "comparison by a function of its own",
    "4c": "printing by hand",
    "6a": "fixed table whose filled part a number beside it tells",
    "6b": "space with a place in it beside it",
}

CONVERSIONS = r"rule_for|fault_rule|broken_rule|fault_of|goes_on|key_of|key_named|kind_named|renewals_of|index|negate"
COMPARISONS = r"at_most|comes_before|is_word|same_bytes|is_complete"
PASSES_ON = r"(return (None|Err\(.*\)|Ok\(None\)|Ok\(Reply::Refused.*\)|false);|unreachable)"
ARM = (
    r"\s*((None|Err\(\w+\)|Err\(_\)) => (None|return |Err\(|Ok\(Reply::Refused|unreachable)"
    r"|Some\(0\) => None|None => Err\(|Some\(_\) => None,|None => true,|Err\(number\) => number)"
)


def block(lines, i):
    """The lines of the block that line i opens."""
    indent = len(lines[i]) - len(lines[i].lstrip())
    body = []
    for line in lines[i + 1 :]:
        if line.strip() and len(line) - len(line.lstrip()) <= indent:
            break
        body.append(line)
    return body


def loop_kind(line, body):
    text = "\n".join(body)
    if re.match(r"\s*while ", line):
        return "3b"
    if "saturating_add(1) {" in line:
        return "3f"
    ranged = re.match(r"\s*for (\w+) in .*\.\.", line)
    if ranged:
        name = ranged.group(1)
        if re.search(r"\[\s*%s\b|\b%s \+ 1\b" % (name, name), text) or ".len()" in line:
            return "3a"
        return None
    if "saturating_add(1)" in text:
        return "3e"
    if re.search(r"return (true|false|Some\(|key)", text):
        return "3c"
    if re.search(r"\*\w+ = (0|\w+\.zero\(\));", text):
        return "3d"
    if re.search(r"^\s*digest = ", text, re.M) and len(body) == 1:
        return "3g"
    return None


def kinds(lines, i):
    line = lines[i]
    after = lines[i + 1].strip() if i + 1 < len(lines) else ""
    if re.search(r"(let (Some|Ok)\(.*|\)) else \{$", line) and re.match(PASSES_ON, after):
        yield "1a"
    if re.search(r"\bmatch .* \{$", line) and len(block(lines, i)) < 12:
        if any(re.match(ARM, arm) for arm in block(lines, i)):
            yield "1b"
    if re.search(r"-> Option<\w*Refusal>", line) or re.search(r"^\) -> Option<usize>$", line):
        yield "1c"
    if re.search(r"\.is_some\(\) \{$", line) and re.match(r"return (?!None|false)\w+;", after):
        yield "1d"
    if re.search(r"if let (Some|Err)\(\w+\) = ", line) and re.match(r"return (Err|Ok)\(", after):
        yield "1d"
    if re.search(r"Fault\(u8\)|: u8 = [12];|Result<u64, u32>|fault: u8|number: u8", line):
        yield "1e"
    if re.search(r"const (NOTHING|UNIT_ONE|UNIT_TWO|BOTH): usize|pub failed: usize", line):
        yield "1f"
    if re.match(r"\s*(Plan\(Vec<u8>\),|Other,$|Unknown,$)", line) or "Pair(&'a [u8], &'a [u8])," in line:
        yield "1g"
    if re.search(r"out: &mut \[u32\]\) -> bool", line):
        yield "1h"
    if re.match(r"\s*(for .* in .*\{|while .*\{)$", line):
        kind = loop_kind(line, block(lines, i))
        if kind:
            yield kind
    if re.search(r"\bfn (%s)\b" % CONVERSIONS, line):
        yield "4a"
    if re.search(r"\bfn (%s)\b" % COMPARISONS, line) and not line.rstrip().endswith("bool;"):
        if "at_most" not in line or "{" in line:
            yield "4b"
    if "refused={" in line or re.search(r"\bfn words\b", line):
        yield "4c"
    if re.search(r"pub(\(crate\))? \w+: \[\[?\w+; *(MOST_\w+|MAX_PARTS)\]", line) or re.search(
        r"let mut (line|space|digits|values|working|policy) = \[.*; (LINE_ROOM|MOST_DIGITS|MOST_STATES)\];", line
    ):
        yield "6a"
    if re.search(r"out: &mut \[u8\], at: usize", line):
        yield "6b"


def main():
    args = [a for a in sys.argv[1:] if a != "-v"]
    root = args[0] if args else os.path.join(os.path.dirname(os.path.abspath(__file__)), "..")
    found = {kind: [] for kind in NAMES}
    for path in sorted(glob.glob(os.path.join(root, "crates", "*", "src", "*.rt"))):
        lines = open(path, encoding="utf-8").read().split("\n")
        for i, line in enumerate(lines):
            if line.lstrip().startswith(("//", "ghost", "requires", "ensures")):
                continue
            for kind in kinds(lines, i):
                found[kind].append((os.path.relpath(path, root), i + 1, line.strip()))
    for kind, name in NAMES.items():
        print(f"{kind} {len(found[kind]):3d}  {name}")
        if "-v" in sys.argv[1:]:
            for path, number, line in found[kind]:
                print(f"        {path}:{number}: {line}")


main()
