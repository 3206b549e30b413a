#!/usr/bin/env python3
"""Brings the names of this repository's own definitions and lemmas to one spelling: words in snake case, types and facts in camel case.

usage: python3 tools/respell.py      at the top of the repository, once

A name counts as the repository's own where an .antt file of a crate declares it or a line of imports gives it to something; names that Rattle makes (goals and
invariants, declared in Answers.antt and Invariants.antt, and the fields of a case w) keep their spelling. Names are turned in .antt and .rt files, comments too.
"""

import os
import re
import sys

DECLARED = re.compile(r"^\s*(?:(?:pub|abbrev|unfoldable|record|data|ruleset)\s+)*([^\s:(){}.,]+)\s*(?:\([^()]*\)\s*|\{[^{}]*\}\s*)*:(?!=)")
RULES = re.compile(r"^(?:pub )?ruleset\s+([^\s:(){}.,]+)")
ALIASES = re.compile(r"^(?:ghost )?use ")
EDGE = r"[^\s(){}.,;:\[\]|=\"`]"


def files(root):
    for folder, _, names in os.walk(os.path.join(root, "crates")):
        for name in sorted(names):
            if name.endswith((".antt", ".rt")):
                yield os.path.join(folder, name)


def declared(root):
    found = set()
    for path in files(root):
        made = os.path.basename(path) in ("Answers.antt", "Invariants.antt")
        with open(path, encoding="utf-8") as text:
            for line in text:
                if ALIASES.match(line):
                    found.update(re.findall(r" as ([^\s,{}]+)[,}]", line))
                if not path.endswith(".antt"):
                    continue
                if line.startswith("use ") or line.lstrip().startswith("--"):
                    continue
                for form in (DECLARED, RULES):
                    match = form.match(line)
                    if match and not (made and re.search(r":\s*(goal|need|given)\.", line)):
                        found.add(match.group(1))
    return found


def respelled(name):
    if name[0].isupper():
        return "".join(word[0].upper() + word[1:] for word in name.split("-"))
    return name.replace("-", "_")


def main(root):
    own = declared(root)
    turned = {n: respelled(n) for n in own if "-" in n and respelled(n) != n}
    clashes = sorted(n for n, m in turned.items() if m in own or sum(1 for k in turned.values() if k == m) > 1)
    if clashes:
        print("respell: two names would fall together: " + ", ".join(clashes), file=sys.stderr)
        return 1
    token = re.compile(r"(?<!\bw\.)(?<!" + EDGE + ")(" + "|".join(re.escape(n) for n in sorted(turned, key=len, reverse=True)) + ")(?!" + EDGE + ")")
    for path in files(root):
        with open(path, encoding="utf-8") as f:
            text = f.read()
        new = token.sub(lambda m: turned[m.group(1)], text)
        if new != text:
            with open(path, "w", encoding="utf-8") as f:
                f.write(new)
    print(f"respell: {len(turned)} names")
    return 0


if __name__ == "__main__":
    raise SystemExit(main(sys.argv[1] if len(sys.argv) > 1 else "."))
