"""Finds what nothing uses: definitions, lemmas, imports, functions and public items, and functions of tests.

A definition or lemma (of `specs/` and `proofs/`) is used where a clause of `src/` names it, where a goal of the prover is
answered by it (`Answers`, `Invariants` and their like stand in a folder with a function's name and import its goals), where it is a row
that is computed, or where something used names it. An import is used where its file names it elsewhere. A function that is
not public is used where its crate names it twice, and one of a trait by the trait's callers. A public item of a library is
used where another crate names it, a public call takes or gives it, or a document tells of it; a law where a document does.
In a crate of tests, which has a folder tests/, a public function is what the tests share, and is used where the crate names it twice.

Called with the folder of the crates, and the documents; prints a line for each thing that nothing uses.
"""
import os
import re
import sys

WORD = re.compile(r"[^\s(){},;.\"\\]+")
SIGNATURE = re.compile(r"^( *)(?:unfoldable )?(?:abbrev )?(?:pub )?(record |data )?([^\s(){}:.=]+)(?: [^=:]*)? :(?: |$)")
IMPORT = re.compile(r"use Rattle\.([\w.+\-<>]+)\.\{([^}]*)\}")
WHOLE = re.compile(r"^(?:ghost )?(?:pub )?use Rattle\.([\w.+\-<>]+)(?: as ([\w\-]+))?;?$")
NO_NAMES = {"use", "mod", "module", "where", "mutual", "pub", "let", "in", "λ", "abbrev", "unfolding"}


def read(path):
    with open(path, encoding="utf-8") as file:
        return file.read()


def files_below(folder, ending):
    for at, folders, names in os.walk(folder):
        folders[:] = sorted(f for f in folders if f not in ("out", "must-fail", "data"))
        for name in sorted(names):
            if name.endswith(ending):
                yield os.path.join(at, name)


def imports_of(text):
    """What the imports name here: a name of this file, and the module and the name there."""
    found = {}
    for module, names in IMPORT.findall(text):
        for part in names.split(","):
            words = part.split()
            if words:
                found[words[-1]] = (module, words[0])
    return found


def pieces(name):
    """The words by which a name is written: those between the places of its arguments."""
    return [p for p in name.split("◌") if p] if "◌" in name else [name]


class Module:
    """A file of definitions or lemmas."""

    def __init__(self, path, name):
        text = re.sub(r"(?m)(^|\s)--.*$", r"\1", read(path))
        self.path, self.name = path, name
        self.imports = imports_of(text)
        self.aliases = {m.group(2): m.group(1) for m in map(WHOLE.match, text.splitlines()) if m and m.group(2)}
        self.lines, self.bodies, self.public, self.makers = {}, {}, set(), {}
        self.asked = set()
        self.split(text)

    def split(self, text):
        current, headers = None, []
        for number, line in enumerate(text.splitlines(), 1):
            if not line.strip() or line.startswith(("use ", "pub use ", "pub mod ", "mod ", "#")):
                continue
            depth = len(line) - len(line.lstrip())
            headers = [h for h in headers if h[0] < depth]
            words = line.split()
            if words[0] == "module" or words[:2] == ["abbrev", "mutual"] or words[0] == "mutual":
                headers.append((depth, line))
                continue
            outer = headers[-1][0] if headers else -2
            match = SIGNATURE.match(line) if depth == outer + 2 else None
            if match and match.group(3) not in NO_NAMES:
                current = match.group(3)
                self.lines.setdefault(current, number)
                if " pub " in " " + line.split(":")[0] or line.lstrip().startswith("pub "):
                    self.public.add(current)
                self.bodies.setdefault(current, [h[1] for h in headers])
                if match.group(2):
                    self.makers[current] = current
            elif depth == outer + 2 and words[0] in self.bodies:
                current = words[0]
            if current is None:
                self.asked.add(line)
                continue
            self.bodies[current].append(line)
            inner = SIGNATURE.match(line) if depth > outer + 2 else None
            if inner and current in self.makers:
                self.makers[inner.group(3)] = current

    def named(self, lines):
        """The modules and names that the lines name."""
        for line in lines:
            for alias, name in re.findall(r"([\w\-]+)\.([^\s(){},;.]+)", line):
                if alias in self.aliases:
                    yield (self.aliases[alias], name)
            for word in WORD.findall(line):
                yield (self.name, word)
                if word in self.imports:
                    yield self.imports[word]

    def is_asked(self):
        """Whether the prover asks for it: it answers goals, or its rows are computed."""
        base = os.path.basename(self.path)[:-5]
        return any(a.endswith(("Goals", "Given")) for a in self.aliases.values()) or base.endswith(("Rows", "Proof", "Answers", "Invariants"))


def modules(crates):
    found = {}
    for crate in sorted(os.listdir(crates)):
        for part in ("specs", "proofs"):
            folder = os.path.join(crates, crate, part)
            for path in files_below(folder, ".antt"):
                inner = os.path.relpath(path, os.path.join(crates, crate))[:-5].replace(os.sep, ".")
                found[crate + "." + inner] = Module(path, crate + "." + inner)
    return found


def asked_by_sources(crates):
    for path in files_below(crates, ".rt"):
        text = read(path)
        own = os.path.relpath(path, crates).split(os.sep)[0]
        for module, name in imports_of(text).values():
            yield (module, name)
        for way in re.findall(r"crate::((?:specs|proofs)::[\w:\-]+)", text):
            parts = way.split("::")
            yield (own + "." + ".".join(parts[:-1]), parts[-1])


def unused_definitions(crates, known):
    operators = {}
    for module in known.values():
        for name in module.bodies:
            for piece in pieces(name):
                operators.setdefault((module.name, piece), set()).add(name)
    live, left = set(), []

    def ask(module, name):
        there = known.get(module)
        if there is None:
            return
        names = set(operators.get((module, name), set()))
        if name in there.makers:
            names.add(there.makers[name])
        for one in names:
            if (module, one) not in live:
                live.add((module, one))
                left.append((module, one))

    for module, name in asked_by_sources(crates):
        ask(module, name)
    for module in known.values():
        for where, name in module.named(module.asked):
            ask(where, name)
        if module.is_asked():
            answers = module.bodies if module.path.endswith("Rows.antt") else module.public
            for name in answers:
                ask(module.name, name)
    while left:
        module, name = left.pop()
        there = known[module]
        for where, other in there.named(there.bodies[name]):
            ask(where, other)
    for module in known.values():
        for name, line in module.lines.items():
            if (module.name, name) not in live:
                yield f"{module.path}:{line}: {name}: nothing uses this definition"


def unused_imports(crates):
    for ending in (".antt", ".rt"):
        for path in files_below(crates, ending):
            text = re.sub(r"(?m)(^|\s)(--|//).*$", r"\1", read(path))
            if re.search(r"(?m)^pub use Rattle", text):
                text = re.sub(r"(?m)^pub use Rattle.*$", "", text)
            body = IMPORT.sub(" ", text)
            words = set(re.findall(r"[^\s(){},;.\"\\&|]+", body)) | set(re.findall(r"[^\s(){},;\"\\]+", body))
            for name in imports_of(text):
                if not all(p in words or p in body for p in pieces(name)) or ("◌" not in name and name not in words):
                    yield f"{path}: {name}: the file imports it and names it nowhere"


FUNCTION = re.compile(r"(?m)^\s*(pub |pub\(crate\) )?(?:const |unsafe )*fn (\w+)")
SIGNATURE_OF_PUBLIC = re.compile(r"(?s)\bpub fn .*?(?=\brequires\b|\bensures\b|\{)")
BLOCK = re.compile(r"(?m)^(?:pub )?(?:impl|trait)\b[^{]*")


def without_comments(text):
    return re.sub(r"(?m)//.*$", "", text)


def sources_of(crates):
    """The sources of each crate, with its tests, without comments, by path."""
    found = {}
    for crate in sorted(os.listdir(crates)):
        files = [*files_below(os.path.join(crates, crate, "src"), ".rt"), *files_below(os.path.join(crates, crate, "tests"), ".rs")]
        found[crate] = {p: without_comments(read(p)) for p in files}
    return found


def is_of_a_trait(text, place):
    """Whether the function there is one of a trait: a caller of the trait calls it."""
    blocks = [m.group(0) for m in BLOCK.finditer(text, 0, place)]
    return text[place] in " \n" and bool(blocks) and ("trait " in blocks[-1] or " for " in blocks[-1])


def unused_functions(crates):
    for crate, texts in sources_of(crates).items():
        whole = "\n".join(texts.values())
        is_library = not os.path.isdir(os.path.join(crates, crate, "tests"))
        for path, text in texts.items():
            for match in FUNCTION.finditer(text):
                name, before = match.group(2), text[: match.start()].rstrip()
                if (match.group(1) == "pub " and is_library) or name == "main" or before.endswith("#[test]") or is_of_a_trait(text, match.start()):
                    continue
                if len(re.findall(r"\b%s\b" % name, whole)) == 1:
                    yield f"{path}: {name}: nothing calls this function"


def unused_items(crates, told):
    sources = sources_of(crates)
    for crate, texts in sources.items():
        root = os.path.join(crates, crate, "src", "lib.rt")
        if root not in texts:
            continue
        others = "\n".join(t for c, ts in sources.items() if c != crate for t in ts.values())
        signatures = "\n".join(m for t in texts.values() for m in SIGNATURE_OF_PUBLIC.findall(t))
        for names in re.findall(r"pub use (?!jsonpath_)[\w:]+::(\{[^}]*\}|\w+);", texts[root]):
            for name in re.findall(r"\w+", names):
                if not any(re.search(r"\b%s\b" % name, t) for t in (others, signatures, told)):
                    yield f"{root}: {name}: no other crate, no public call and no document names this item"
        laws = os.path.join(crates, crate, "src", "laws.rt")
        for name in re.findall(r"(?m)^pub fn (\w+)", texts.get(laws, "")):
            if not re.search(r"`(laws::)?%s`" % name, told):
                yield f"{laws}: {name}: no document names this law"


def main():
    crates = sys.argv[1]
    told = "\n".join(read(p) for p in sys.argv[2:])
    for found in (unused_definitions(crates, modules(crates)), unused_imports(crates), unused_functions(crates), unused_items(crates, told)):
        for line in found:
            print(line)


main()
