#!/usr/bin/env python3
"""Part of the port to today's Rattle, run once after port.py: a plain type, which the older language copied wherever it was used twice, says
so by a derive. It goes by text: each struct or enum without parameters whose only derive is Drop gets Clone and Copy in its place."""
import glob
import re

PLAIN = re.compile(r"#\[derive\(Drop\)\]\n(?:#\[[^\n]*\n)*(?:pub(?:\(crate\))? )?(?:struct|enum) \w+(?! *<)")

changed = 0
for path in sorted(glob.glob("crates/*/src/**/*.rt", recursive=True)):
    with open(path, encoding="utf-8") as file:
        text = file.read()
    new, count = PLAIN.subn(lambda found: found[0].replace("derive(Drop)", "derive(Clone, Copy)"), text)
    changed += count
    if count:
        with open(path, "w", encoding="utf-8") as file:
            file.write(new)
print(f"{changed} types")
