#!/usr/bin/env python3
"""What tools/respell.py left out or garbled, mended by the same rules: the files Answers.antt that are no function's, and strings in lemmas.

usage: python3 tools/respell_rest.py      at the top of a checkout, once, right after tools/respell.py

respell.py took specs/Answers.antt and proofs/Answers.antt of a crate for a function's proof file, and turned names inside strings of .antt files.
"""
import os
import re
import sys

sys.path.insert(0, os.path.dirname(os.path.realpath(__file__)))
import respell  # noqa: E402

STRINGS = {
    '"-1_10w"': '"-1-10w"',
    '"1+2w_w^2+3w^3"': '"1+2w-w^2+3w^3"',
    '"w^2_w^3"': '"w^2-w^3"',
    '"omega^3 = 1_2w^2, base 2+w\\n"': '"omega^3 = 1-2w^2, base 2+w\\n"',
}

for path in respell.files(".antt"):
    text = open(path, encoding="utf-8").read()
    new = text
    if re.search(r"/(specs|proofs)/Answers\.antt$", path):
        _, theirs = respell.imports(respell.code_of(text))
        new = respell.TOKEN.sub(lambda m: respell.snake(m.group(0)) if respell.turns(m.group(0)) and m.group(0) not in theirs else m.group(0), "")
        parts = respell.split_comments(text)
        new = "".join(p if i % 2 else respell.TOKEN.sub(lambda m: respell.snake(m.group(0)) if respell.turns(m.group(0)) and m.group(0) not in theirs else m.group(0), p) for i, p in enumerate(parts))
    for garbled, right in STRINGS.items():
        new = new.replace(garbled, right)
    if new != text:
        with open(path, "w", encoding="utf-8") as f:
            f.write(new)
        print(path)
