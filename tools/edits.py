"""What an edit is, as rt reads it and as its wrong answers are named: shared by tools/refused and tools/release.

An edit may hold several wrong answers, each headed by a line `# part: NAME: PLACE, ..`. A place is a function as the prover names it,
`Session::step`, or one declaration of its proof, `Session::step returns-4`, or a file, `proofs/Told.antt`. An edit without such a line is one
wrong answer, named as its file is, and has no place."""
import collections

# A wrong answer's changes are the file, and the text before and after, in their order.
Part = collections.namedtuple("Part", "name places changes")


class Misfit(Exception):
    """An edit does not fit the sources."""


def parts(edit):
    """The wrong answers of an edit."""
    found, file, old = [], "", ""
    for line in edit.read_text().splitlines():
        key, _, text = line.partition(": ")
        if key == "# part":
            name, _, places = text.partition(": ")
            found.append(Part(name, places.split(", "), []))
        elif key == "file":
            file = text
            found = found or [Part(edit.stem, [], [])]
        elif key == "old":
            old = text
        elif key in ("new", "new:"):
            found[-1].changes.append((file, old, text))
    return found


def applied(edit, folder):
    """The texts of the files that an edit changes, by their path in the folder of its crate."""
    texts = {}
    for part in parts(edit):
        for file, old, new in part.changes:
            if file not in texts and not (folder / file).is_file():
                raise Misfit(f"{part.name}: the crate has no file {file}")
            text = texts[file] if file in texts else (folder / file).read_text()
            if text.count(old) != 1:
                raise Misfit(f"{part.name}: this text stands {text.count(old)} times in {file}, and not once: {old.strip()}")
            texts[file] = text.replace(old, new)
    return texts
