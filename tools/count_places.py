#!/usr/bin/env python3
"""Lists the places of src/ whose form may be written plainer, by the points of docs/DESIGN-PASS.md.

usage: python3 tools/count_places.py [--list] [ROOT]      (default: the current folder)

Each count is one of candidates: the page says which of them are places.
"""
import re
import sys
from collections import defaultdict
from pathlib import Path

LINES = {
    "1 enums": r"^(pub(\(crate\))? )?enum ",
    "1 changing calls that answer bool": r"fn \w+\([^)]*&mut [^)]*\) -> bool",
    "1 a value that means none": r"//.*(if there is none|0 for|or none if|in place of 0)",
    "1 functions that answer a number for nothing": r"fn \w+\(\) -> u8",
    "3 loops by while, loop or a range": r"^\s*('\w+: )?(while |loop \{|for \w+ in [^ ]*\.\.)",
    "3 loops over elements": r"^\s*for (?!\w+ in [^ ]*\.\.)",
    "3 counts kept by hand": r"\+= 1;|saturating_add\(1\)",
    "4 impls of equality, conversion, printing": r"^impl.*(PartialEq|Ord|Clone|Copy|Display|Debug|Error|From<|TryFrom<|FromStr)\b",
    "4 functions that compare, test, convert or print": r"fn (to_\w+|from_\w+|same_\w+|number|one_if|flag|kind_of\w*|reason|letter|is_\w+|\w*digit|\w*_char|byte|switch)\(",
    "5 a buffer and a place in it, together": r"out: &mut \[u8\], at: usize",
    "5 what is owed, beside the printer": r"owed: &mut Owed",
    "5 interpreter, beside its mechanism": r"interpreter: &mut Interpreter",
    "6 lengths beside buffers": r"^\s+(pub )?len: (usize|u8),",
    "6 arrays in structs": r"^\s+(pub(\(crate\))? )?\w+: \[[^\]]+; \w+\],$",
    "7 boxes, dyn, function pointers": r"\bdyn |Box<|: fn\(|-> fn\(",
    "7 matches": r"\bmatch ",
}
TOKEN = re.compile(r'b?"[^"]*"|[A-Za-z_]\w*|0x[0-9A-Fa-f_]+|\d[\d_]*|\S')
KEPT = {"fn", "let", "mut", "match", "if", "else", "for", "in", "while", "return", "self", "impl", "pub", "Ok", "Err", "Some", "None", "true", "false"}


def sources(root):
    for path in sorted(root.glob("crates/*/src/**/*.rt")):
        yield path.relative_to(root), path.read_text().split("\n")


def bodies(lines):
    """Each function with its body, by the layout: a body ends at the brace in the column of its `fn`."""
    for start, line in enumerate(lines):
        found = re.match(r"(\s*)(pub(\(crate\))? )?(extern \"C\" )?fn (\w+)", line)
        if not found:
            continue
        indent, name = found.group(1), found.group(5)
        for end in range(start, len(lines)):
            if lines[end] in (indent + "}", indent + "{}") or lines[end].rstrip().endswith(";") and end == start:
                break
        body = [x for x in lines[start:end + 1] if not re.match(r"\s*(ensures|requires|//)", x)]
        yield start + 1, name, body


def shape(body):
    """The body with its names, texts and numbers left out."""
    out = []
    for token in TOKEN.findall("\n".join(body[1:])):
        if token in KEPT or not re.match(r"\w|b?\"", token):
            out.append(token)
        else:
            out.append("_")
    return " ".join(out)


def twins(files):
    alike = defaultdict(list)
    for path, lines in files:
        for at, name, body in bodies(lines):
            key = shape(body)
            if key.count("_") >= 3:
                alike[key].append(f"{path}:{at}: {name}")
    return [places for places in alike.values() if len(places) > 1]


def clauses(files):
    seen = defaultdict(list)
    for path, lines in files:
        for at, line in enumerate(lines, 1):
            if re.match(r"\s+(requires|ensures)\b", line):
                seen[line.strip()].append(f"{path}:{at}")
    return [f"{len(v)} x {k}" for k, v in seen.items() if len(v) >= 3]


def main():
    words = sys.argv[1:]
    listed = "--list" in words
    root = Path(next((w for w in words if not w.startswith("--")), "."))
    files = list(sources(root))
    found = {}
    for name, pattern in LINES.items():
        found[name] = [f"{p}:{i}: {x.strip()}" for p, lines in files for i, x in enumerate(lines, 1) if re.search(pattern, x)]
    groups = twins(files)
    found["2 groups of functions of one shape"] = [" = ".join(g) for g in groups]
    found["5 clauses that stand three times or more"] = clauses(files)
    answers = sorted(root.glob("crates/*/proofs/**/Answers.antt")) + sorted(root.glob("crates/*/proofs/**/Proof.antt"))
    found["8 files of answers"] = [str(p.relative_to(root)) for p in answers]
    for name in sorted(found):
        print(f"{len(found[name]):4} {name}")
        if listed:
            for place in found[name]:
                print(f"       {place}")


main()
