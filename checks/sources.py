"""The sources of the crates, as the checks read them: what a crate exports, with its clauses and its comments, and the modules of specs/.

It is no program: cited_modules.py, double_names.py, promised_names.py and clauses.py use it. Public is what a crate's lib.rt exports, by `pub use` or
`pub mod`, through folders too: its functions, and its types and traits with their methods. A module of src/ or specs/ in a folder is named with
the folder, as `dot::text` of src/dot/text.rt and `dot.Text` of specs/dot/Text.antt.
"""
import re
from pathlib import Path

TOP = Path(__file__).resolve().parent.parent
CRATES = TOP / "crates"
GENERICS = re.compile(r"<[^<>]*(?:<[^<>]*(?:<[^<>]*>[^<>]*)*>[^<>]*)*>")


def listed_crates():
    """The crates of crates.txt, in its order, each with those that its line names."""
    lines = re.sub(r"#.*", "", (TOP / "crates.txt").read_text()).split("\n")
    return {line.split(":")[0].split()[0]: line.partition(":")[2].split() for line in lines if line.strip()}


def imports_of(text, keyword):
    """What each name of a file's imports stands for: a module's path and a name in it, or a module alone."""
    names = {}
    for path, rest in re.findall(keyword + r"\s+([\w.\-]+?)(?:\.?\{([^}]*)\}|(?=\s+as\s|\s*;|\s*$))", text, re.M):
        for item in filter(None, (i.strip() for i in rest.split(","))):
            own, _, other = item.partition(" as ")
            names[(other or own).strip()] = (path, own.strip())
    for path, name in re.findall(keyword + r"\s+([\w.\-]+)\s+as\s+([\w.\-']+)", text, re.M):
        names[name] = (path, None)
    return names


def defined_in(text):
    """The names that an item defines: of definitions, records, kinds of data and their constructors."""
    fields_from = None
    for line in text.split("\n"):
        indent = len(line) - len(line.lstrip())
        if line.strip() and fields_from is not None and indent <= fields_from:
            fields_from = None
        kind = re.match(r"\s*(?:pub )?(data|record) ([^\s(){}:]+)", line)
        name = re.match(r"\s*(?:(?:abbrev|unfoldable|opaque|pub) )*([^\s(){}:=.,;]+) :", line)
        if kind:
            yield kind.group(2)
            fields_from = indent if kind.group(1) == "record" else None
        elif name and fields_from is None:
            yield name.group(1)


def heading_of(text, mark):
    """The lines at the head of a text that begin with a mark."""
    lines = []
    for line in text.split("\n"):
        if not line.startswith(mark):
            break
        lines.append(line)
    return lines


class Module:
    """A module of specs/: its items, and what its imports stand for."""

    def __init__(self, file, name):
        text = re.sub(r"--.*", "", file.read_text())
        self.path = file
        self.name = name
        self.head = [line[2:].strip() for line in heading_of(file.read_text(), "--")]
        self.lines = sum(1 for l in text.split("\n") if l.strip() and not re.match(r"(pub )?use ", l))
        self.imports = imports_of(text, r"(?:pub )?use")
        self.items = {}
        self.texts = []
        item = []
        for line in text.split("\n") + ["abbrev"]:
            if re.match(r"(pub |abbrev|unfoldable|mutual|data|record|use |opaque)", line):
                self.add("\n".join(item))
                item = []
            item.append(line)

    def heading(self):
        """What the comment at the head says, without the module's name before it."""
        said = " ".join(self.head).removeprefix(f"{self.name.split('.')[-1]}: ")
        return said[:1].upper() + said[1:]

    def add(self, text):
        if not text.strip() or re.match(r"(pub )?use ", text):
            return
        number = len(self.texts)
        self.texts.append(text)
        self.items.update((name, number) for name in defined_in(text) if name not in self.items)


def crate_modules(crate):
    """The modules of a crate's specs/, by their names."""
    top = CRATES / crate / "specs"
    files = sorted(file for file in top.glob("**/*.antt") if file.stem != "Lib")
    return {name: Module(file, name) for file in files for name in [".".join(file.relative_to(top).with_suffix("").parts)]}


def braced(text, at):
    """The text of the braces that open at or behind a place, and the place behind them."""
    start = text.index("{", at)
    depth = 0
    for i in range(start, len(text)):
        depth += (text[i] == "{") - (text[i] == "}")
        if depth == 0:
            return text[start + 1 : i], i + 1
    raise ValueError("a brace isn't closed")


def clauses_of(text):
    """The clauses of a header: of each whether it is required or ensured, its name, and what it says."""
    marks = re.finditer(r"\b(requires|ensures)\b(?: (\w+))?(?= *\{)", text)
    return [(m.group(1), m.group(2), braced(text, m.end())[0]) for m in marks]


def header(text, at):
    """The header of a function: all that stands before its body, or before the `;` of one without a body."""
    depth = 0
    for m in re.finditer(r"[{};\[\]]|\b(?:requires|ensures|decreases)\b(?: \w+)? *\{", text[at:]):
        found = m.group()
        if found in "[]":
            depth += 1 if found == "[" else -1
        elif found[-1] == "{" and len(found) > 1:
            depth += 1
        elif found == "{":
            if depth == 0:
                return text[at : at + m.start()]
            depth += 1
        elif found == "}":
            depth -= 1
        elif found == ";" and depth == 0:
            return text[at : at + m.start()]
    return text[at:]


def ghosts_of(text, wanted):
    """The texts of a block's ghost members with these names."""
    found = []
    for m in re.finditer(r"\bghost (\w+)(?: =|:) *\{", text):
        if wanted(m.group(1)):
            found.append(braced(text, m.end() - 1)[0])
    return "\n".join(found)


class File:
    """A file of src/: its text without comments, in the same lines, and its imports."""

    def __init__(self, file, module):
        self.path = file
        self.module = module
        self.raw = file.read_text().split("\n")
        self.text = re.sub(r"//.*", "", "\n".join(self.raw))
        self.imports = imports_of(self.text, "ghost use")
        self.defines = set(re.findall(r"^pub (?:const )?(?:fn|struct|enum|trait|type|const) (\w+)", self.text, re.M))

    def comment_above(self, at):
        """The `///` lines above the place of an item, which stand before its attributes."""
        number = self.text.count("\n", 0, at)
        lines = []
        while number > 0 and (self.raw[number - 1].strip().startswith(("#", "///")) or (not lines and self.is_within(number - 1))):
            number -= 1
            if self.raw[number].strip().startswith("///"):
                lines.insert(0, self.raw[number].strip()[3:].removeprefix(" ").rstrip())
        return lines

    def heading(self):
        """What the `//!` lines at the head say."""
        return [line[3:].strip() for line in heading_of("\n".join(self.raw), "//!")]

    def is_within(self, number):
        """Whether a line is the last of an attribute of several lines."""
        return re.match(r"\s*\)?\)\]\s*$", self.raw[number]) is not None


def module_of(top, file):
    return "::".join(file.relative_to(top).with_suffix("").parts)


class Item:
    """A public function, method, type or trait: where it stands, what its comment says, and its clauses."""

    def __init__(self, crate, path, file, at, text, kind, views=""):
        self.crate = crate
        self.path = path
        self.kind = kind
        self.file = file
        self.comment = file.comment_above(at)
        self.line = file.text.count("\n", 0, at) + 1
        self.clauses = clauses_of(text) if kind in ("function", "method") else []
        self.ghosts = views

    def contract(self):
        return "\n".join(text for _, _, text in self.clauses) + "\n" + self.ghosts

    def names_of_clauses(self):
        return [name for kind, name, _ in self.clauses if name]


class Crate:
    """What a crate exports, each item with the text of its contracts and that of its views."""

    def __init__(self, name):
        self.name = name
        self.modules = crate_modules(name)
        self.items = []
        self.public = {}
        self.views = {}
        self.file_of = {}
        top = CRATES / name / "src"
        files = [file for file in sorted(top.glob("**/*.rt")) if not any("tests" in part for part in file.relative_to(top).with_suffix("").parts)]
        self.files = {module_of(top, file): File(file, module_of(top, file)) for file in files}
        self.exports = {}
        if "lib" in self.files:
            for (module, own), path in self.exported("lib", "").items():
                self.exports.setdefault((module, own), path)
        for file in self.files.values():
            self.read(file)

    def exported(self, module, before):
        """What a module hands out: pairs of the module that defines it and its name there, with the path by which it is called."""
        found = {}
        text = self.files[module].text
        inside = "" if module == "lib" else f"{module}::"
        for child, listed in re.findall(r"^pub use ([\w:]+?)::(\{[^}]*\}|\w+(?: as \w+)?);", text, re.M):
            child = inside + re.sub(r"^(crate|self)::", "", child)
            given = self.handed_out(child)
            for item in filter(None, (i.strip() for i in listed.strip("{}").split(","))):
                own, _, other = (part.strip() for part in item.partition(" as "))
                if own in given:
                    found[given[own]] = before + (other or own)
        for child in re.findall(r"^pub mod (\w+);", text, re.M):
            if inside + child in self.files:
                for own, where in self.handed_out(inside + child).items():
                    found.setdefault(where, f"{before}{child}::{own}")
        return found

    def handed_out(self, module):
        """The names that a module defines or hands on, each with where it is defined."""
        if module not in self.files:
            return {}
        found = {path.split("::")[-1]: where for where, path in self.exported(module, "").items()}
        return found | {name: (module, name) for name in self.files[module].defines}

    def add(self, where, item, text, file):
        where[item] = where.get(item, "") + "\n" + text
        self.file_of.setdefault(item, set()).add(file)

    def read(self, file):
        for m in re.finditer(r"^pub (?:const )?fn (\w+)", file.text, re.M):
            path = self.exports.get((file.module, m.group(1)))
            if path:
                item = Item(self.name, path, file, m.start(), header(file.text, m.start()), "function")
                self.items.append(item)
                self.add(self.public, path, item.contract(), file.module)
        for m in re.finditer(r"^pub (struct|enum|trait) (\w+)", file.text, re.M):
            path = self.exports.get((file.module, m.group(2)))
            if path and m.group(1) == "trait":
                body, _ = braced(file.text, m.end())
                ghosts = ghosts_of(body, lambda n: True)
                self.items.append(Item(self.name, path, file, m.start(), "", "trait", ghosts))
                self.add(self.public, path, "\n".join(text for _, _, text in clauses_of(body)) + ghosts, file.module)
                self.methods(file, m.end(), body, path, r"\bfn (\w+)")
            elif path:
                self.items.append(Item(self.name, path, file, m.start(), "", "type"))
        for m in re.finditer(r"^impl\b([^{]*)\{", file.text, re.M):
            said = GENERICS.sub("", m.group(1)).split(" for ")
            owner = re.match(r"\s*(\w+)", said[-1])
            path = owner and self.path_of_type(owner.group(1))
            if not path:
                continue
            body, _ = braced(file.text, m.end() - 1)
            self.methods(file, m.end() - 1, body, path, r"\bfn (\w+)" if len(said) > 1 else r"\bpub (?:const )?fn (\w+)")
            self.add(self.public, path, ghosts_of(body, lambda n: n not in ("view", "invariant", "coded", "inverse")), file.module)
            self.add(self.views, path, ghosts_of(body, lambda n: n in ("view", "invariant")), file.module)

    def named(self, path):
        """The items of this path: a function, a type, or a method, which may stand in several traits' implementations."""
        return [item for item in self.items if item.path == path]

    def path_of_type(self, name):
        return next((path for (_, own), path in self.exports.items() if own == name and own[0].isupper()), None)

    def methods(self, file, at, body, owner, mark):
        start = file.text.index("{", at) + 1
        for m in re.finditer(mark, body):
            item = Item(self.name, f"{owner}::{m.group(1)}", file, start + m.start(), header(body, m.start()), "method")
            self.items.append(item)
            self.add(self.public, owner, item.contract(), file.module)

    def seen_as(self, name):
        """The value as which contracts see a type, which stands among its contracts."""
        last = name.split("::")[-1]
        found = []
        for module in self.file_of[name]:
            text = self.files[module].text
            for m in re.finditer(r"^impl\b[^{]*\bModel for " + last + r"\b[^{]*\{", text, re.M):
                found.append(ghosts_of(braced(text, m.end() - 1)[0], lambda n: n == "Value"))
        return "\n".join(found)

    def type_of(self, name):
        """The path of a public type or trait of this name, or None."""
        return name if name in self.public else next((path for path in self.public if path.split("::")[-1] == name), None)


def read_crates():
    """The crates of crates.txt, in its order."""
    return {name: Crate(name) for name in listed_crates()}
