#!/usr/bin/env python3
"""Spells this repository's own definitions and lemmas in snake case: a dash in a name that specs/ or proofs/ declares becomes `_`.

usage: tools/respell.py, at the top of the repository, once, after the toolchain's own port.py.

It turns the names in .antt files, in the clauses of .rt files, in must-fail edits, and in the code spans of comments and pages. It leaves
names of the library, names of Rust, and, below proofs/FUNCTION/, the labels that the toolchain makes.
"""

import glob
import re
import sys

WORD = r"[^\s(){}.;,@\"«»`|]+"
DECLARED = re.compile(rf"(?m)^ *(?:(?:abbrev|unfoldable|pub|data|record|let)\s+)*({WORD}(?: {WORD})*)(?: *\{{[^\n]*?\}}| *\([^\n]*?\))* : ")
BOUND = re.compile(rf"[({{]({WORD}(?: {WORD})*) : ")
USE = re.compile(r"(?m)^(?:ghost )?(?:pub )?use ([^\s{;]+?)(?:\.\{([^}]*)\}| as (\S+?))?;?$")
COMMENT = re.compile(r"(?:(?<=\s)|^)(?:--|//)[^\n]*", re.M)
SPAN = re.compile(r"`[^`\n]*`")
FENCE = re.compile(r"(?ms)^( *)```[^\n]*\n.*?^\1```")


def of_a_function(path):
    """Whether the file lies in the folder of a function's proof."""
    parts = path.split("/proofs/", 1)
    return len(parts) == 2 and "/" in parts[1]


def read(path):
    with open(path, encoding="utf-8") as file:
        return file.read()


def all_files(*patterns):
    return sorted(path for pattern in patterns for path in glob.glob(pattern, recursive=True))


def declared_names(paths):
    """The names with a dash that the files of specs/ and the lemmas of proofs/ declare, each with its new spelling."""
    found = set()
    for path in paths:
        if not of_a_function(path):
            text = COMMENT.sub("", read(path))
            for match in DECLARED.finditer(text):
                found.update(match[1].split())
            for match in BOUND.finditer(text):
                found.update(match[1].split())
            found.update(match[1].strip("{}") for match in re.finditer(rf" as ({WORD})", text))
    return {name: name.replace("-", "_") for name in found if re.fullmatch(r"[A-Za-z0-9'-]+", name) and "-" in name.strip("-")}


def imports(text, ours):
    """The names that a file takes from its own repository, and those that it takes from elsewhere."""
    own, foreign = set(), set()
    for match in USE.finditer(text):
        steps = match[1].split(".")
        into = own if steps[0] == "Rattle" and len(steps) > 1 and steps[1] in ours else foreign
        for item in (match[2] or "").split(","):
            into.update(item.split(" as ")[-1].split())
            into.update(item.split(" as ")[0].split())
        if match[3]:
            into.add(match[3])
    return own, foreign


def words_turned(text, table, may):
    def one(match):
        word = match[0]
        return table[word] if word in table and may(word, text[: match.start()]) else word

    return re.sub(WORD, one, text)


def code_turned(text, table, may):
    """The text with its code turned, and of its comments only the spans between backquotes."""
    out, at = [], 0
    for match in COMMENT.finditer(text):
        out.append(words_turned(text[at : match.start()], table, may))
        out.append(SPAN.sub(lambda span: words_turned(span[0], table, lambda *_: True), match[0]))
        at = match.end()
    out.append(words_turned(text[at:], table, may))
    return "".join(out)


def page_turned(text, table):
    turn = lambda match: words_turned(match[0], table, lambda *_: True)
    return SPAN.sub(turn, FENCE.sub(turn, text))


def main():
    with open("crates.txt", encoding="utf-8") as file:
        ours = {line.split(":")[0].split()[0] for line in file if ":" in line and not line.startswith("#")}
    lemmas = all_files("crates/*/specs/**/*.antt", "crates/*/proofs/**/*.antt")
    table = declared_names(lemmas)
    for path in lemmas + all_files("crates/*/src/**/*.rt"):
        text = read(path)
        own, foreign = imports(text, ours)
        own_or_ours = own | (set() if of_a_function(path) else set(table))

        def may(word, before, own=own, foreign=foreign, path=path, allowed=own_or_ours):
            if word in foreign:
                return False
            if of_a_function(path) and before.endswith("."):
                return re.search(r"(?<![\w.])(\w+)\.$", before) is not None and re.search(r"(?<![\w.])(\w+)\.$", before)[1] in own
            return word in allowed

        new = code_turned(text, table, may)
        if of_a_function(path):
            left = sorted(word for word in own if word in table and re.search(rf"(?<![\w.-]){re.escape(word)}(?![\w-])", COMMENT.sub("", new)))
            if left:
                print("left:", path, *left)
        if new != text:
            with open(path, "w", encoding="utf-8") as file:
                file.write(new)
    # Edits and pages were not turned by port.py: here each dashed name turns whose new spelling is declared.
    for path in lemmas:
        if not of_a_function(path):
            for match in DECLARED.finditer(COMMENT.sub("", read(path))):
                table.update({name.replace("_", "-"): name for name in match[1].split() if "_" in name.strip("_")})
    for path in all_files("crates/*/must-fail/*.edit"):
        text = read(path)
        new = words_turned(text, table, lambda *_: True)
        if new != text:
            with open(path, "w", encoding="utf-8") as file:
                file.write(new)
    for path in all_files("*.md", "docs/**/*.md"):
        text = read(path)
        new = page_turned(text, table)
        if new != text:
            with open(path, "w", encoding="utf-8") as file:
                file.write(new)
    print(len(table), "names turned")


if __name__ == "__main__":
    sys.exit(main())
