#!/usr/bin/env python3
"""Brings the repository's own definitions and lemmas to one spelling: words in snake case, types and modules in upper camel case.

usage: python3 tools/respell.py        at the top of a checkout, once, right after port.py

It goes by tokens. A name of ours is one that a file of specs/ or of proofs/ (a function's folder left out) has and does not import from a library;
of those each with a dash between letters, and each that begins small and has a capital, is turned. In a function's proof the names that it imports
from such files and those that it states itself are turned, and the fields of our records; names that the toolchain makes stay. In .rt files and
in must-fail edits the same names are turned outside strings. Functions of src/, strings, inputs and outputs keep their names. Names that fall
together in a file are printed, and nothing is written then.
"""
import os
import re
import sys

ROOT = "crates"
OWN = set(os.listdir(ROOT))
NAME = r"[^\s(){}\[\],;.:\"`]+"
TOKEN = re.compile(NAME)
USE = re.compile(r"^use ([^\s{]+?)\.\{([^}]*)\}", re.M)
ALIAS = re.compile(r"^use (\S+) as (\S+)", re.M)
KEBAB = re.compile(r"(?<=[A-Za-z0-9'₀-₉_→])-(?=[A-Za-z0-9→])")
CAMEL = re.compile(r"^[a-z].*?[a-z0-9][A-Z]")
# of two names that fall together the lemma gets _lem, and a field another word
OTHERWISE = {
    "leaf-count": "leaf_count_within",
    "input-count": "input_count_within",
    "in-alphabet": "within_alphabet",
    "rows-found": "rows_found_lem",
    "row-reach": "row_reach_lem",
    "check-words": "check_words_lem",
    "forecast-words": "forecast_words_lem",
    "bad-row-words": "bad_row_words_lem",
    "add_words": "add_words_lem",
    "edit-words": "edit_words_lem",
    "word-length": "word_length_lem",
    "pairs-listed": "pairs_listed_lem",
    "group-number": "group_number_lem",
    "part-of": "part_of_lem",
    "limited-base": "limited_base_lem",
    "padded-times": "padded_times_lem",
    "tail-number": "tail_number_lem",
    "upper-passes": "upper_passes_lem",
    "pair-passes": "pair_passes_lem",
    "file-line": "file_line_lem",
    "extent-line": "extent_line_lem",
    "due-line": "due_line_lem",
    "byte-line": "byte_line_lem",
    "element-line": "element_line_lem",
    "row-line": "row_line_lem",
    "sum-line": "sum_line_lem",
    "product-line": "product_line_lem",
    "digit-lines": "digit_lines_lem",
}


def turns(name):
    return name in OTHERWISE or bool(KEBAB.search(name) or CAMEL.match(name))


def snake(name):
    if name in OTHERWISE:
        return OTHERWISE[name]
    if CAMEL.match(name):
        name = re.sub(r"(?<=[a-z0-9])([A-Z])", lambda m: "_" + m.group(1).lower(), name)
    return KEBAB.sub("_", name)


def is_own(module):
    parts = module.split(".")
    return parts[0] == "Rattle" and len(parts) > 1 and parts[1] in OWN


def imports(text):
    ours, theirs = set(), set()
    for m in USE.finditer(text):
        names = {x.strip().split(" as ")[-1] for x in m.group(2).split(",") if x.strip()}
        generated = re.search(r"\.proofs\.(\+?[a-z_0-9]+)\.(Tie|Statement|Reads|Goals|Given)$", m.group(1))
        if is_own(m.group(1)) and not generated:
            ours |= names
        else:
            theirs |= names
    return ours, theirs


def files(end):
    for folder, dirs, names in os.walk(ROOT):
        dirs[:] = sorted(d for d in dirs if d != "out")
        for f in sorted(names):
            if f.endswith(end):
                yield os.path.join(folder, f)


def of_function(path):
    return os.path.basename(path) in ("Proof.antt", "Invariants.antt", "Answers.antt")


def code_dotted(m):
    return m.start() > 0 and m.string[m.start() - 1] == "."


def split_comments(text):
    """Pieces of code and of comment, in turn."""
    return re.split(r"(--(?=[\s-]).*)", text)


def code_of(text):
    return "".join(p for i, p in enumerate(split_comments(text)) if i % 2 == 0)


def main():
    texts = {p: open(p, encoding="utf-8").read() for p in files(".antt")}
    ours = set()
    fields = set()
    for path, text in texts.items():
        if of_function(path):
            continue
        code = code_of(text)
        _, theirs = imports(code)
        body = USE.sub("", code)
        for m in TOKEN.finditer(body):
            if turns(m.group(0)) and m.group(0) not in theirs:
                ours.add(m.group(0))
        for block in re.finditer(r"record [^\n]* where\n((?:[ \t]+.*\n|\n)*)", code + "\n"):
            for m in re.finditer(r"^\s+(?:pub )?(" + NAME + r") :", block.group(1), re.M):
                fields.add(m.group(1))
        mine, _ = imports(code)
        ours |= {n for n in mine if turns(n)}
    out, clash = {}, []
    for path, text in texts.items():
        code = code_of(text)
        mine, theirs = imports(code)
        if of_function(path):
            here = {n for n in mine if turns(n)}
            for m in re.finditer(r"^(?:abbrev |unfoldable |pub )*(" + NAME + r") : (.*)$", code, re.M):
                if turns(m.group(1)) and not re.match(r"tie\.(Need|invariant|decreases)", m.group(2)) and "statement" not in m.group(2):
                    here.add(m.group(1))
        else:
            here = {n for n in ours if n not in theirs}
        seen = {}
        for m in TOKEN.finditer(re.sub(r"\bRattle\.[^\s{]*", "", code)):
            if of_function(path) and code_dotted(m):
                continue
            new = snake(m.group(0)) if m.group(0) in here else m.group(0)
            seen.setdefault(new, set()).add(m.group(0))
        here_clash = [f"{path}: {new} of {', '.join(sorted(olds))}" for new, olds in seen.items() if len(olds) > 1]
        if of_function(path):
            # a local name of a proof: said, and mended by hand
            print("\n".join("look: " + c for c in here_clash), end="\n" if here_clash else "")
        else:
            clash += here_clash

        def turn(m):
            n = m.group(0)
            dotted = m.start() > 0 and m.string[m.start() - 1] == "."
            if of_function(path) and dotted and n not in theirs:
                return snake(n) if n in fields and turns(n) else n
            return snake(n) if n in here else n

        def turn_comment(m):
            n = m.group(0)
            ticked = m.string[m.start() - 1:m.start()] == "`"
            if n in ours and (CAMEL.match(n) or ticked or "Pinned by" in m.string or "proofs/" in m.string):
                return snake(n)
            return n

        parts = split_comments(text)
        out[path] = "".join(TOKEN.sub(turn_comment if i % 2 else turn, p) for i, p in enumerate(parts))
    names = {n for n in ours}

    def turn_source(text):
        def turn(m):
            return snake(m.group(0)) if m.group(0) in names else m.group(0)

        def line(l):
            # strings stay, and so do words of a comment that are no name in ticks or in camel case
            pieces = re.split(r'("(?:[^"\\]|\\.)*")', l)
            for i in range(0, len(pieces), 2):
                code, sep, comment = pieces[i].partition("//")
                code = TOKEN.sub(turn, code)
                comment = TOKEN.sub(lambda m: snake(m.group(0)) if m.group(0) in names and (CAMEL.match(m.group(0)) or m.string[m.start() - 1:m.start()] == "`") else m.group(0), comment)
                pieces[i] = code + sep + comment
            return "".join(pieces)

        return "\n".join(line(l) for l in text.split("\n"))

    for path in list(files(".rt")) + list(files(".edit")):
        text = open(path, encoding="utf-8").read()
        out[path] = turn_source(text)
        if path.endswith(".rt"):
            seen = {}
            for m in re.finditer(r"\.\{([^}]*)\}", text):
                for n in m.group(1).split(","):
                    n = n.strip().split(" as ")[-1]
                    seen.setdefault(snake(n) if n in names else n, set()).add(n)
            clash += [f"{path}: {new} of {', '.join(sorted(olds))}" for new, olds in seen.items() if len(olds) > 1]
    if clash:
        print("\n".join(clash))
        print(f"respell: {len(clash)} names fall together; nothing is written")
        return 1
    for path, text in out.items():
        with open(path, "w", encoding="utf-8") as f:
            f.write(text)
    print(f"respell: {len(ours)} names turned")
    return 0


if __name__ == "__main__":
    sys.exit(main())
