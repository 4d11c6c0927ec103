#!/usr/bin/env python3
"""Brings this repository's own names to the toolchain's spelling.

usage: python3 tools/spell_names.py [ROOT]      (default: the current folder)

It follows the toolchain's own upgrade script and reads what that left. Definitions, fields, constructors and lemmas
become snake case, types and modules upper camel case, names that the toolchain makes of a function's words keep
those words' spelling, and the crate `hex`, whose name a library of the toolchain has, becomes `hexadecimal`. Functions of src/, strings, inputs and outputs keep their names: only text that a proof or a
contract reads is changed. It runs once; a second run changes nothing.
"""

import os
import re
import sys

WORD = r"[A-Za-z][\w']*(?:-[\w']+)*"
HEAD = r"\s*(?:(?:abbrev|pub|unfoldable|opaque)\s+)*"
# words that the toolchain makes, and names of its library
MADE = re.compile(r": goal\.")
FOREIGN = re.compile(r"^\s*(?:pub )?(?:ghost )?use (?!Rattle\.)|^\s*(?:pub )?(?:ghost )?use Rattle\.std\b")
# words of the toolchain's own in the names that it makes
MADE_WORDS = {
    "in_ok", "in_err", "in_default", "overflow_add", "overflow_sub", "overflow_mul", "overflow_cast", "overflow_step",
    "invariant_of", "type_inv", "slice_bounds", "nonzero_div", "nonzero_rem",
}
# methods of the library that the code calls
LIBRARY_METHODS = {
    "copy_from_slice", "saturating_sub", "saturating_add", "to_be_bytes", "extend_from_slice", "from_residual",
    "deref_mut", "is_some", "is_none", "is_empty", "as_slice", "as_bytes", "is_err", "is_ok", "wrapping_add",
    "wrapping_sub", "strip_prefix", "starts_with", "as_str", "as_mut", "next_back", "split_at", "get_mut",
}
OLD_CRATE, NEW_CRATE = "hex", "hexadecimal"


def own_crates(root):
    return sorted(d for d in os.listdir(os.path.join(root, "crates")) if os.path.isdir(os.path.join(root, "crates", d)))


def files(root, *endings):
    for folder, dirs, names in os.walk(os.path.join(root, "crates")):
        dirs[:] = sorted(d for d in dirs if d != "out")
        for name in sorted(names):
            if name.endswith(endings):
                yield os.path.join(folder, name)


def bare(line):
    """A line of a proof file without its comment."""
    return re.sub(r"(^|\s)--( .*|$)", "", line)


def camel(name):
    return "".join(part[:1].upper() + part[1:] for part in re.split(r"[-_]", name))


def spelt(name):
    return camel(name) if name[0].isupper() else name.replace("-", "_")


def is_old(name):
    return "-" in name or (name[0].isupper() and "_" in name)


def declared(root):
    """The names with an old spelling that specs/ and proofs/ declare."""
    names, foreign = set(), set()
    for path in files(root, ".antt"):
        with open(path, encoding="utf-8") as f:
            for line in f:
                line = bare(line.rstrip("\n"))
                if FOREIGN.match(line):
                    foreign |= set(re.findall(WORD, line))
                if MADE.search(line):
                    continue
                m = re.match(rf"{HEAD}((?:{WORD}\s+)*{WORD})\s*:(?!=)", line)
                names |= set(m.group(1).split()) if m else set()
                names |= set(re.findall(rf"^\s*(?:pub\s+)?(?:data|record|module|pub mod|mod)\s+({WORD})", line))
                names |= set(re.findall(rf"\blet\s+({WORD})(?=\s*[:=])", line))
                for group in re.findall(rf"[({{]((?:{WORD}\s+)+): ", line):
                    names |= set(group.split())
    foreign = {n for n in foreign if is_old(n)}
    return {n for n in names if is_old(n)} - foreign, foreign


def modules(root):
    """Files of specs/ and proofs/ whose names have an old spelling, as paths from and to."""
    moves = []
    for path in files(root, ".antt"):
        folder, name = os.path.split(path)
        stem = name[: -len(".antt")]
        if is_old(stem):
            moves.append((path, os.path.join(folder, camel(stem) + ".antt")))
    return moves


def replaced(text, names):
    """Text with each old name in its new spelling; a longer word that holds one stays."""
    return re.sub(rf"(?<![\w'-]){WORD}", lambda m: spelt(m.group(0)) if m.group(0) in names else m.group(0), text)


def source_words(crate):
    """The identifiers of a crate's source that have an underscore."""
    words = set()
    for folder, _, names in os.walk(os.path.join(crate, "src")):
        for name in names:
            if name.endswith(".rt"):
                with open(os.path.join(folder, name), encoding="utf-8") as f:
                    words |= set(re.findall(r"\b[a-z]\w*_\w*", f.read()))
    return words


def made(name, words):
    """A name that the toolchain makes: a dash joins its parts, and each part keeps its spelling."""
    parts, out = name.split("-"), []
    while parts:
        n = next((n for n in range(len(parts), 1, -1) if "_".join(parts[:n]) in words), 1)
        out.append("_".join(parts[:n]))
        parts = parts[n:]
    return "-".join(out)


def turn_made(root, names, foreign):
    """Turns the made names in the proofs of functions; returns how many files changed."""
    changed = 0
    for crate in own_crates(root):
        words = source_words(os.path.join(root, "crates", crate)) | MADE_WORDS | LIBRARY_METHODS
        for path in files(os.path.join(root), ".antt"):
            folder, name = os.path.split(path)
            if f"/crates/{crate}/proofs/" not in path or name not in ("Answers.antt", "Invariants.antt", "Proof.antt"):
                continue
            skip = names | foreign

            def turn(text):
                lines = []
                for line in text.split("\n"):
                    code = bare(line)
                    new = re.sub(rf"(?<![\w'-]){WORD}", lambda m: m.group(0) if m.group(0) in skip else made(m.group(0), words), code)
                    lines.append(new + line[len(code):] if line.startswith(code) and not FOREIGN.match(line) else line)
                return "\n".join(lines)

            changed += rewrite(path, turn)
    return changed


def turn_proof(text, names):
    lines = []
    for line in text.split("\n"):
        code = bare(line)
        lines.append(replaced(code, names) + line[len(code):] if line.startswith(code) else line)
    return "\n".join(lines)


def turn_source(text, names):
    """Of a source file, what contracts read: comments and strings stay."""
    lines = []
    for line in text.split("\n"):
        if line.lstrip().startswith("//"):
            lines.append(line)
            continue
        parts = re.split(r'("(?:[^"\\]|\\.)*")', line)
        lines.append("".join(p if i % 2 else replaced(p, names) for i, p in enumerate(parts)))
    return "\n".join(lines)


def turn_edit(text, names):
    return "\n".join(replaced(line, names) if line.startswith(("old:", "new:")) else line for line in text.split("\n"))


def rename_crate(root):
    old, new = (os.path.join(root, "crates", n) for n in (OLD_CRATE, NEW_CRATE))
    if not os.path.isdir(old):
        return
    os.rename(old, new)
    for path in files(root, ".rt", ".antt"):
        rewrite(path, lambda t: re.sub(rf"\bRattle\.{OLD_CRATE}\.", f"Rattle.{NEW_CRATE}.", re.sub(rf"(?m)^(\s*use ){OLD_CRATE}::", rf"\1{NEW_CRATE}::", t)))
    listing = os.path.join(root, "crates.txt")
    rewrite(listing, lambda t: "\n".join(l if l.startswith("#") else re.sub(rf"\b{OLD_CRATE}\b", NEW_CRATE, l) for l in t.split("\n")))


def rewrite(path, turn):
    with open(path, encoding="utf-8") as f:
        old = f.read()
    new = turn(old)
    if new != old:
        with open(path, "w", encoding="utf-8") as f:
            f.write(new)
    return new != old


def main():
    root = sys.argv[1] if len(sys.argv) > 1 else "."
    names, foreign = declared(root)
    moves = modules(root)
    names |= {os.path.basename(a)[: -len(".antt")] for a, _ in moves}
    changed = 0
    for ending, turn in ((".antt", turn_proof), (".rt", turn_source), (".edit", turn_edit)):
        for path in files(root, ending):
            changed += rewrite(path, lambda t, turn=turn: turn(t, names))
    changed += turn_made(root, names, foreign)
    for a, b in moves:
        os.rename(a, b)
    rename_crate(root)
    print(f"spell_names: {len(names)} names, {changed} files changed, {len(moves)} files renamed")


main()
