#!/usr/bin/env python3
"""Part of the port to today's Rattle, run once after port.py and port_derives.py: the repository's own definitions, lemmas, fields and
constructors get today's spelling, words in snake case. It goes by text, file by file: a name is turned where it is declared, where it is
imported from a crate of this repository, and behind a dot where it is a field or stands behind a module of this repository. Names that the
kit declares or that Rattle makes stay. A dash stays where it joins names of definitions only, as in length-append. What was turned is written to
tools/port_names.tsv, old name, new name; where names would fall together, one gets the ending _lem, which is told."""
import collections
import glob
import os
import re

CRATES = {name for name in os.listdir("crates") if os.path.isdir(f"crates/{name}/src")}
NAME = r"[^\s(){}\[\].,;:λ«»@]+"
SIGNATURE = re.compile(r"^( *)((?:(?:pattern|unfoldable|abbrev|pub|axiom) )*)(%s)((?: \{[^}]*\})*) :(?=\s|$)" % NAME)
RULESET = re.compile(r"^(?:pub )?ruleset (%s)" % NAME)
USE = re.compile(r"(?m)^ *(?:pub |ghost )*(?:use|open) ([\w.+'-]+?)(?:\.\{([^}]*)\})?(?: as (\S+?))?;?$")
TOKEN = re.compile(r"[A-Za-z_][\w'₀₁₂₃-]*(?<![-])")

def lines_of(path):
    with open(path, encoding="utf-8") as file:
        return file.read()


def bad(name):
    return re.fullmatch(r"[a-z][a-z0-9]*[A-Z].*", name) or ("-" in name and re.fullmatch(r"[A-Za-z][\w'-]*", name))


def snake(word):
    return re.sub(r"(?<=[a-z0-9])([A-Z])", lambda m: "_" + m[1].lower(), word) if word[:1].islower() else word


def antt():
    return sorted(p for part in ("specs", "proofs") for p in glob.glob(f"crates/*/{part}/**/*.antt", recursive=True))


def own_path(path):
    """Whether a path of a use line leads to a module that someone wrote in this repository."""
    parts = path.split(".")
    if parts[0] != "Rattle" or len(parts) < 3 or parts[1] not in CRATES or parts[2] not in ("specs", "proofs"):
        return False
    if parts[2] == "specs":
        return len(parts) < 4 or parts[3] not in ("declared", "contracts")
    return parts[-1] not in ("Tie", "Statement", "Kinds", "Reads", "Goals", "Given", "Lts", "Code", "TheVariants", "TheConstants")


files = antt()
declared = collections.defaultdict(list)
fields = set()
for path in files:
    kind = None
    is_proof = path.endswith("/Proof.antt")
    for line in lines_of(path).split("\n"):
        if line[:1].strip():
            head = re.match(r"(?:pub )?(record|data)\b", line)
            kind = head[1] if head else None
        found = SIGNATURE.match(line) or RULESET.match(line)
        if not found:
            continue
        name = found[3] if found.re is SIGNATURE else found[1]
        indent = found[1] if found.re is SIGNATURE else ""
        if is_proof and "pub" not in line.split() and "-" in name and not re.search(r"[a-z][A-Z]", name):
            continue
        declared[name].append(path)
        if indent and kind == "record":
            fields.add(name)

# Names of definitions, which a dash may join.
words = {n for n, ps in declared.items() if any("/specs/" in p for p in ps) and "-" not in n} | set(
    "append length take drop nil cons set map snoc repeated add sub mul div mod le lt eq eqb ltb leb nltb pow some none".split()
)


def new_name(name):
    parts = name.split("-")
    if all(p in words for p in parts):
        return "-".join(snake(p) for p in parts)
    return "_".join(snake(p) for p in parts)


turned = {n: new_name(n) for n in declared if bad(n) and new_name(n) != n}

# Where names fall together the definition of specs/ has the name, and a lemma or a field gets the ending _lem.
tokens = {path: set(TOKEN.findall(lines_of(path))) for path in files}
back = collections.defaultdict(set)
for old, new in turned.items():
    back[new].add(old)
for new, olds in sorted(back.items()):
    everyone = sorted(olds | ({new} & set(declared)), key=lambda n: ("-" in n, not any("/specs/" in p for p in declared[n]), n in fields, n))
    first = everyone[0]
    for other in everyone[1:]:
        meet = [p for p, has in tokens.items() if first in has and other in has]
        if "-" in other or meet:
            turned[other] = new + "_lem"
            print(f"fell together: {new} is {first}; {other} becomes {new}_lem")


def turn(path, text, own):
    kit, mine, aliases = set(), set(own), set()
    for found in USE.finditer(text):
        is_own = own_path(found[1])
        names = [n.strip() for n in (found[2] or "").replace("\n", " ").split(",") if n.strip()]
        if found[2] is None and found[3] is None and "." in found[1]:
            head, _, last = found[1].rpartition(".")
            names, is_own = [last], own_path(head)
        if found[3] and found[2] is None and is_own:
            aliases.add(found[3])
        for each in names:
            name, _, alias = each.partition(" as ")
            (mine if is_own else kit).add(name)
            if alias:
                mine.add(alias)
    kit -= set(own)

    def token(found):
        word, at = found[0], found.start()
        new = turned.get(word)
        if new is None or word in kit and text[at - 1] != ".":
            return word
        if text[at - 1 : at] == ".":
            before = re.search(r"([\w'₀₁₂₃-]+)\.$", text[max(0, at - 60) : at])
            if word in fields or before and before[1] in aliases:
                return new
            return word
        if word in mine or word in fields or re.match(r"\s*\.", text[max(0, at - 3) : at]):
            return new
        return word

    # Imports in braces stand behind a dot, but one by one.
    return TOKEN.sub(token, text)


count = 0
for path in files + sorted(glob.glob("crates/*/src/**/*.rt", recursive=True)):
    text = lines_of(path)
    own = {n for n, ps in declared.items() if path in ps}
    new = turn(path, text, own)
    if new != text:
        count += 1
        with open(path, "w", encoding="utf-8") as file:
            file.write(new)
with open("tools/port_names.tsv", "w", encoding="utf-8") as file:
    for old, new in sorted(turned.items()):
        file.write(f"{old}\t{new}\n")
print(f"{len(turned)} names, {count} files")
