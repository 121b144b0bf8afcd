"""What a crate reaches of the crates below it, as far as contracts say: definitions of specs/ and items of src/, by their names.

A name is followed from the `use` lines of a file to what it names in another: the definitions of that name, or of a source the items
(types with their impls, traits, constants, and functions without their bodies); and from there to what their own words name. A lemma is
reached for what it names, not for its own text. Comments and layout count for nothing."""
import hashlib, os, re

USE = re.compile(r"(?m)^\s*(?:pub )?(?:ghost )?use ([^;\n{]*?)(?:\.|::)?(?:\{([^}]*)\})?(?: as (\S+?))?;?$")
ITEM = re.compile(r"(?m)^(?:pub(?:\([a-z]+\))? )?(?:unsafe )?(?:const )?(struct|enum|union|trait|fn|const|static|type|impl)\b")


def plain(text):
    """A text without comments, its words one blank apart."""
    return " ".join(re.sub(r"(?m)^\s*(//|--).*$", "", text).split())


def uses(text):
    """What the `use` lines of a text name: the parts of a path, and the names behind it."""
    joined = re.sub(r"\{[^}]*\}", lambda found: " ".join(found[0].split()), text)
    for path, names, alias in USE.findall(joined):
        parts = [part for part in re.split(r"::|\.", path) if part]
        if parts[:1] == ["Rattle"]:
            parts = parts[1:]
        yield parts, [tuple((name.strip().split(" as ") * 2)[:2]) for name in names.split(",") if name.strip()], alias


class Source:
    """A file of src/ or of specs/ and proofs/: its items by name, and what its names stand for."""

    def __init__(self, text, signatures=None):
        self.items, self.names, self.found = {}, {}, {}
        if signatures:
            self.find_items(text, signatures)
        else:
            self.find_definitions(text)
        for parts, names, alias in uses(text):
            if names:
                for name, here in names:
                    self.names[here] = (parts, name)
            elif parts:
                self.names[alias or parts[-1]] = (parts, None)

    def words(self, text):
        """The words of an item that stand for something else."""
        if text not in self.found:
            self.found[text] = {word for word in re.findall(r"[^\s(){}\[\]<>,;:.&*!?]+", text) if word in self.items or word in self.names}
        return self.found[text]

    def find_definitions(self, text):
        """Definitions stand apart by a line that is empty, or a comment; what is further in belongs to them."""
        body = re.sub(r"(?m)^use .*$", "", text)
        for made in re.split(r"(?m)(?:^(?:--.*)?\n)+(?=\S)", body):
            own = plain(made)
            for name in set(re.findall(r"(?m)^\s*(?:abbrev )?(?:pub )?(?:abbrev |data |record )?([^\s(){}:]+)(?= *[:({])", made)):
                self.items.setdefault(name, []).append(own)

    def find_items(self, text, signatures):
        """Items without the bodies of their functions."""
        lines = text.split("\n")
        starts = [text.count("\n", 0, found.start()) for found in ITEM.finditer(text)]
        # An item begins with its attributes.
        starts = [next(at for at in range(start, -1, -1) if at == 0 or not lines[at - 1].startswith(("#[", "//"))) for start in starts]
        for start, end in zip(starts, [*starts[1:], len(lines)]):
            item = plain(signatures("\n".join(lines[start:end])))
            head = item.split("{")[0]
            made = re.search(r"(?:\bfor )?(?:\w+::)*([A-Za-z_]\w*)(?:<[^{]*>)?\s*(?:where .*)?$", head) if head.startswith("impl") else re.search(
                r"\b(?:struct|enum|union|trait|fn|const|static|type) (?:mut )?(\w+)", head)
            if made and head.startswith("impl") and " for " not in head:
                for part in re.split(r"(?m)^(?=    (?:pub(?:\([a-z]+\))? )?(?:const )?fn )", signatures("\n".join(lines[start:end]))):
                    # Others can't call what isn't public.
                    if re.match(r"    pub (?:const )?fn ", part):
                        self.items.setdefault(made[1], []).append(plain(part).rstrip("} "))
            elif made:
                self.items.setdefault(made[1], []).append(item)


class Reached:
    """What crates reach, over the files of a checkout."""

    def __init__(self, top, signatures):
        self.top, self.signatures, self.texts, self.sources, self.items, self.folders = top, signatures, {}, {}, {}, {}

    def text(self, path):
        if path not in self.texts:
            full = f"{self.top}/crates/{path}"
            self.texts[path] = open(full, encoding="utf-8").read() if os.path.isfile(full) else None
        return self.texts[path]

    def source(self, path):
        if path not in self.sources:
            text = self.text(path)
            self.sources[path] = text and Source(text, self.signatures if path.endswith(".rt") else None)
        return self.sources[path]

    def sources_of(self, crate):
        """The files of src/, each of which may have an impl of a type of another."""
        if crate not in self.folders:
            src = f"{self.top}/crates/{crate}/src"
            self.folders[crate] = [os.path.relpath(f"{folder}/{file}", f"{self.top}/crates") for folder, _, files in os.walk(src) for file in files if file.endswith(".rt")]
        return self.folders[crate]

    def module(self, crate, parts):
        """The file of src/ that a path begins with, and the rest of the path."""
        for size in range(len(parts), -1, -1):
            for path in (f"{crate}/src/{'/'.join(parts[:size])}.rt", f"{crate}/src/{'/'.join([*parts[:size], 'mod'])}.rt"):
                if size and self.text(path) is not None:
                    return path, parts[size:]
        return f"{crate}/src/lib.rt", parts

    def targets(self, own, parts, name):
        """What a path names, with one of the names behind it: files of specs/ and proofs/, and items of sources."""
        crate, rest = (own, parts[1:]) if parts[0] == "crate" else (parts[0], parts[1:])
        if not crate.startswith("flow_"):
            return
        if rest[:1] in (["specs"], ["proofs"]) and rest[1:2] != ["declared"]:
            for size in range(len(rest), 1, -1):
                path = f"{crate}/{'/'.join(rest[:size])}.antt"
                if self.text(path) is not None:
                    yield path, (rest[size:] + [name])[0]
                    return
            return
        if rest[:2] == ["specs", "declared"]:
            rest = rest[2:]
        path, left = self.module(crate, rest)
        left = [part for part in left if not part.startswith("The")] + ([name] if name else [])
        yield path, left[0] if left else None

    def of(self, crate):
        """The sums of all that is reached from a crate in those below it, by what it is."""
        found, todo = {}, []
        for part in ("src", "specs", "proofs"):
            for folder, _, files in os.walk(f"{self.top}/crates/{crate}/{part}"):
                for file in files:
                    for parts, names, _ in uses(self.text(os.path.relpath(f"{folder}/{file}", f"{self.top}/crates")) or ""):
                        for name in [name for name, _ in names] or [None]:
                            todo.extend(self.targets(crate, parts, name) if parts else ())
        while todo:
            path, name = todo.pop()
            if (path, name) not in found and not path.startswith(f"{crate}/"):
                found[path, name], further = self.item(path, name)
                todo.extend(further)
        return sorted({f"{path.split('/')[0]} {name} {one}" for (path, name), sums in found.items() if "/proofs/" not in path for one in sums})

    def item(self, path, name):
        """The sum of an item, and what its words name; of a name that the file hands on, of that; of none, of all items."""
        if (path, name) not in self.items:
            self.items[path, name] = self.found(self.source(path), path, name)
        return self.items[path, name]

    def found(self, source, path, name):
        own = path.split("/")[0]
        if source is None:
            return [], []
        if name is not None and name not in source.items:
            if name in source.names:
                parts, other = source.names[name]
                return [], list(self.targets(own, parts, other))
            name = None
        texts, further = source.items[name] if name else [item for items in source.items.values() for item in items], []
        for word in set().union(*(source.words(text) for text in texts)):
            if word in source.items and word != name:
                further.append((path, word))
            elif word in source.names:
                parts, other = source.names[word]
                further.extend(self.targets(own, parts, other))
        if name and path.endswith(".rt"):
            further += [(other, name) for other in self.sources_of(own) if name in self.source(other).items]
        return [hashlib.sha256(text.encode()).hexdigest()[:20] for text in texts], list(dict.fromkeys(further))
