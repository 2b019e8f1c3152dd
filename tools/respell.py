#!/usr/bin/env python3
"""Brings this repository's own definitions, lemmas, fields and variables to Rattle's spelling: words in snake case, types and modules in camel case.

usage: python3 tools/respell.py       once, at the top of the repository, after port.py and before any edit by hand

It goes by text: every name that a file of specs/ or proofs/ declares and that has a dash or a capital inside is written with underscores, there, in
the clauses of src/ and in the texts of must-fail edits. Functions, fields and constants of src/ keep their names, as do names that a file imports from
Rattle's own libraries. OTHER has the names that would fall together with another one, and those that read better under another name. The crate hex
becomes hex_text, since Rattle has a library of that name.
"""

import os
import re
import subprocess

# a lemma that would have its definition's name, or a definition that would have the name of a field of src/
OTHER = {
    "after-class": "after_class_lem",
    "after-footprint": "after_footprint_lem",
    "all-below": "all_below_lem",
    "bytes-of": "bytes_of_lem",
    "div-up": "div_up_lem",
    "factor-above": "factor_above_lem",
    "factor-below": "factor_below_lem",
    "is-entry": "is_entry_lem",
    "not-given": "not_given_lem",
    "only-first": "only_first_lem",
    "or-below": "or_below_lem",
    "p16-line": "p16_line_lem",
    "printed-fields": "printed_fields_lem",
    "reading-refusal": "reading_refusal_lem",
    "slide-max": "slide_max_lem",
    "total-max": "total_max_lem",
    "worst-at": "worst_at_lem",
    "worst-place": "worst_place_lem",
    "wrong-column": "wrong_column_lem",
    "dragFactor": "drag_factor_of",
    "frameLength": "frame_len",
    "frontalArea": "frontal_area_of",
    "textLength": "text_len",
    "withSlide": "slide_counts",
    "kJ": "kilojoules",
}
# a field of this name stands in the files of worked points, and a lemma in others
FIELD_OF_POINTS = "exact-column"
# what port.py left in one file
LEFT = {"atMost", "at-most"}

WORD = r"[^\s(){}\[\];,.\"`]+"
DECLARED = re.compile(
    r"^(\s*)((?:pub |abbrev |unfoldable |data |record |ruleset )*)(" + WORD + r")((?:\s+" + WORD.replace("`", "`:") + r")*)\s*:(?=\s|$)"
)
BOUND = re.compile(r"[({]((?:" + WORD + r"\s+)*" + WORD + r")\s+:\s")
OWN_USE = re.compile(r"^(?:ghost )?use ([^\s{;]+)(?:\.\{([^}]*)\})?", re.M)


def is_odd(name):
    return bool(("-" in name and re.search("[A-Za-z]", name)) or re.match(r"[a-z]+\d*[A-Z]", name))


def respelled(name, path):
    if name == FIELD_OF_POINTS and "Point" not in path:
        return "exact_column_lem"
    if name in OTHER:
        return OTHER[name]
    return re.sub(r"([a-z0-9])([A-Z])", lambda m: m.group(1) + "_" + m.group(2).lower(), name.replace("-", "_"))


def files(*endings):
    listed = subprocess.run(["git", "ls-files", "crates"], capture_output=True, text=True, check=True).stdout.split()
    return [f for f in listed if f.endswith(endings)]


def read(path):
    with open(path, encoding="utf-8") as it:
        return it.read()


def write(path, text):
    with open(path, "w", encoding="utf-8") as it:
        it.write(text)


def is_goal(name, text):
    """A name that a proof by hand gives to a goal of Rattle's."""
    return re.search(r"^" + re.escape(name) + r" : tie\.Need-", text, re.M)


def declared_names():
    names = set(LEFT)
    for path in files(".antt"):
        text = read(path)
        for line in text.split("\n"):
            if line.strip().startswith("--"):
                continue
            m = DECLARED.match(line)
            found = [m.group(3), *m.group(4).split()] if m else []
            m = re.match(r"\s*let (" + WORD + ")", line)
            found += [m.group(1)] if m else []
            for m in BOUND.finditer(line):
                found += m.group(1).split()
            names |= {n for n in found if is_odd(n) and not n.startswith("Need-") and not is_goal(n, text)}
    return names


def imported(text, own):
    names = set()
    for m in OWN_USE.finditer(text):
        path = m.group(1).split(".")
        if m.group(2) and not (path[0] == "Rattle" and path[1] in own):
            names |= {n.strip() for n in m.group(2).split(",")}
    return names


def turn(text, path, names, kept, words=WORD):
    def one(m):
        n = m.group(0)
        return respelled(n, path) if n in names and n not in kept else n

    return re.sub(words, one, text)


def turn_antt(text, path, names, own):
    kept = imported(text, own) | {n for n in names if is_goal(n, text)}
    lines = []
    camel = {n for n in names if "-" not in n}
    for line in text.split("\n"):
        if line.strip().startswith("--"):
            lines.append(turn(line, path, camel, kept, r"[A-Za-z0-9_'-]+"))
        else:
            lines.append(turn(line, path, names, kept))
    return "\n".join(lines)


def turn_rt(text, path, names, own):
    """Only clauses and ghost lines of src/ have names with a capital inside; a dash joins a name there only in a record's field."""
    camel = {n for n in names if "-" not in n}
    kept = imported(text, own)
    lines = []
    for line in text.split("\n"):
        if '"' in line:
            lines.append(line)
            continue
        line = turn(line, path, camel, kept, r"[A-Za-z0-9_'-]+")
        if re.match(r"(ghost use|\s*(requires|ensures|ghost)\b)", line) or re.search(r"record \{", line):
            line = turn(line, path, names, kept)
        lines.append(line)
    return "\n".join(lines)


def turn_edit(text, path, names, own):
    """An edit's texts; also in the names that port.py has respelled in the file that it edits."""
    m = re.search(r"^\s*file:\s*(\S+)", text, re.M)
    path = os.path.join(os.path.dirname(os.path.dirname(path)), m.group(1))
    is_antt = path.endswith(".antt")
    there = set(re.findall(WORD, read(path)))
    odd = {n for n in re.findall(WORD, text) if is_odd(n)}
    names = names | {n for n in odd if n not in there and respelled(n, path) in there}
    lines = []
    for line in text.split("\n"):
        m = re.match(r"((?:old|new): )(.*)$", line)
        if m and is_antt:
            m = re.match(r"((?:old|new): )(.*)$", re.sub(r"(?<=[\w')]) \.(?=[\w])", ".", line))
        if m:
            line = m.group(1) + (turn_antt if is_antt else turn_rt)(m.group(2), path, names, own)
        lines.append(line)
    return "\n".join(lines)


def rename_hex():
    if os.path.isdir("crates/hex"):
        subprocess.run(["git", "mv", "crates/hex", "crates/hex_text"], check=True)
    for path in files(".antt", ".rt", ".edit"):
        text = read(path)
        text = re.sub(r"\bRattle\.hex\.", "Rattle.hex_text.", text)
        text = re.sub(r"\b(use |crate::)?hex::", lambda m: m.group(0).replace("hex::", "hex_text::"), text)
        write(path, text)
    text = read("crates.txt")
    write("crates.txt", "".join(l if l.startswith("#") else re.sub(r"\bhex\b", "hex_text", l) for l in text.splitlines(keepends=True)))


def main():
    rename_hex()
    own = set(os.listdir("crates"))
    names = declared_names()
    for path in files(".antt", ".rt") + files(".edit"):
        text = read(path)
        turned = {".antt": turn_antt, ".rt": turn_rt, ".edit": turn_edit}[os.path.splitext(path)[1]](text, path, names, own)
        if turned != text:
            write(path, turned)
    print(len(names), "names")


if __name__ == "__main__":
    main()
