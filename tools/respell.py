#!/usr/bin/env python3
"""Brings the definitions and lemmas of this repository to the spelling of today's Rattle: words in snake case, facts and types in camel
case, a prime as an apostrophe. It runs once, after the kit's port.py, at the top of the checkout:

    python3 tools/respell.py

It turns each name in lower camel case in specs/, proofs/, the ghost parts of src/ and must-fail/, and leaves strings alone. A name that a
dash joins is turned part by part. Names that would fall together are in APART, facts that are spelled as words in FACTS.
"""
import glob
import re

# A lemma whose name would be that of a definition beside it, once that one is spelled in snake case.
APART = {
    "read_again": "read-again",
    "write_again": "write-again",
    "left_as": "left-as",
    "end_refused": "end-refused",
    "over_none": "none-over",
}
# Facts, by the files that know them.
FACTS = [
    ("crates/spans/", "above", "IsAbove"),
    ("crates/floats/proofs/Unique.antt", "is_refused", "IsRefused"),
]
NAME = re.compile(r"[A-Za-z_][A-Za-z0-9_'′₀-₉-]*")
CAMEL = re.compile(r"[a-z][a-z0-9_]*[A-Z]")
STRING = re.compile(r'b?"(?:[^"\\]|\\.)*"', re.S)


def snake(part):
    """One part of a name, in snake case where it is in lower camel case."""
    if part == "getD":
        return "get_or"
    if not CAMEL.match(part):
        return part
    out = re.sub(r"([A-Z]+)([A-Z][a-z])", r"\1_\2", part)
    out = re.sub(r"([a-z0-9])([A-Z])", r"\1_\2", out)
    return out.lower()


def turned(match):
    """A whole name, part by part."""
    name = match.group().replace("′", "'")
    if name in APART:
        return APART[name]
    return "-".join(snake(part) for part in name.split("-"))


def respelled(path, text):
    """The text of a file with its names turned, strings left as they are."""
    at = 0
    parts = []
    strings = STRING.finditer(text) if path.endswith((".rt", ".edit")) else []
    for string in strings:
        parts.append(NAME.sub(turned, text[at:string.start()]))
        parts.append(string.group())
        at = string.end()
    parts.append(NAME.sub(turned, text[at:]))
    text = "".join(parts)
    for where, word, fact in FACTS:
        if path.startswith(where) and path.endswith((".antt", ".rt", ".edit")):
            lines = []
            for line in text.split("\n"):
                code, dash, said = line.partition("--" if path.endswith(".antt") else "//")
                code = re.sub(r"(?<![\w-])" + word + r"(?![\w-])", fact, code)
                lines.append(code + dash + said)
            text = "\n".join(lines)
    return text


def main():
    paths = []
    for kind in ("*.antt", "*.rt", "*.edit"):
        paths += glob.glob("crates/**/" + kind, recursive=True)
    changed = 0
    for path in sorted(paths):
        with open(path, encoding="utf-8") as file:
            old = file.read()
        new = respelled(path, old)
        if new != old:
            with open(path, "w", encoding="utf-8") as file:
                file.write(new)
            changed += 1
    print(f"respell: {changed} of {len(paths)} files")


if __name__ == "__main__":
    main()
