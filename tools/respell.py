#!/usr/bin/env python3
"""Brings the definitions, lemmas, fields and local names that this repository's own .antt files declare
to snake case, and its types to camel case, in every .antt file and in the ghost parts of every .rt file.

Run it once, at the top, after the kit's port.py. Names that Rattle makes (goals, steps) are left alone,
and so are comments and strings. With --list it only prints the renamings.
"""
import collections
import glob
import re
import sys

# lemmas on the logic's own bit_or and bit_and, whose names they would take
KEPT = {"bit-or", "bit-and"}

# a name of antt: anything but white space and brackets, no dot, comma or semicolon
NAME = r"[^\s.,;:(){}\[\]«»λ]+"
DECLARED = re.compile(
    r"^\s*(?:unfoldable |abbrev )?(?:pub )?(?:abbrev |unfoldable |record |data |ruleset )*(?:pub )?(" + NAME + r")\s*"
    r"(?:\{[^}]*\}\s*|\([^)]*\)\s*)*:\s*(\S*)", re.M)
BOUND = re.compile(r"(?:λ|let)\s+((?:[^.=\n]|\.\d)*?)(?:\.\s|=)")
# parameters, and names under which a file takes what another declares
OTHERS = {"lone-u", "some-literal", "free-owner", "is-a", "is-o", "slot-ref", "clauses-of"}


def sources(kind):
    return sorted(glob.glob(f"crates/*/specs/**/*.{kind}", recursive=True)
                  + glob.glob(f"crates/*/proofs/**/*.{kind}", recursive=True)
                  + glob.glob(f"crates/*/src/**/*.{kind}", recursive=True))


def dashed(name):
    return name not in KEPT and re.fullmatch(r"[A-Za-z][A-Za-z0-9_']*(-[A-Za-z0-9_']+)+", name)


def respelled(name):
    if name[0].isupper():
        return "".join(part[:1].upper() + part[1:] for part in name.split("-"))
    return name.replace("-", "_")


def renamings():
    out = collections.OrderedDict((name, "a parameter or an alias") for name in sorted(OTHERS))
    for path in sources("antt"):
        text = open(path).read()
        for found in DECLARED.finditer(text):
            name, said = found.groups()
            if dashed(name) and not said.startswith("goal."):
                out.setdefault(name, path)
        for found in BOUND.finditer(text):
            for name in re.findall(NAME, found.group(1)):
                if dashed(name):
                    out.setdefault(name, path)
    return out


def rename(text, names, comment):
    token = re.compile(r'"(?:[^"\\]|\\.)*"|' + comment + r"[^\n]*|(?<![A-Za-z0-9_'\-])[A-Za-z][A-Za-z0-9_']*(?:-[A-Za-z0-9_']+)+")
    return token.sub(lambda m: respelled(m.group()) if m.group() in names else m.group(), text)


def main():
    names = renamings()
    if "--list" in sys.argv:
        for name, path in names.items():
            print(f"{name} -> {respelled(name)}  ({path})")
        return
    for kind, comment in (("antt", "--"), ("rt", "//")):
        for path in sources(kind):
            text = open(path).read()
            turned = rename(text, names, comment)
            if turned != text:
                open(path, "w").write(turned)


main()
