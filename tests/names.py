"""What the repository's scripts know of its text: the definitions and laws of specs/ and proofs/, the types that src/ declares, and which
names each of them cites."""
import glob
import os
import re

ROOT = os.path.dirname(os.path.dirname(os.path.abspath(__file__)))
HEAD = re.compile(r"^(?P<marks>(?:abbrev |unfoldable |pub )*)(?:(?P<kind>record|data) )?(?P<name>[^\s:{(]+)(?: \{[^}]*\})?(?: .*)?$")
SIGNATURE = re.compile(r"^(?:abbrev |unfoldable |pub )*[^\s:{(]+(?: \{[^}]*\})? *:")
USE = re.compile(r"^(?:ghost )?use Rattle\.(?P<crate>[A-Za-z0-9_]+)\.(?P<path>(?:specs|proofs)\.[^\s{]+?)(?:\.\{(?P<names>.*)\}| as (?P<alias>\S+?))?;?$")
WORD = re.compile(r"[^\s(){};,\[\]|⌜⌝«»⟦⟧\"]+")


class Item:
    """A definition or a law: its name, its file, its lines without comments, its comment, and what its enclosing blocks say."""

    def __init__(self, name, path, kind, public):
        self.name, self.path, self.kind, self.public = name, path, kind, public
        self.lines, self.comment, self.around, self.parts = [], [], [], []

    def text(self):
        return "\n".join(self.around + self.lines)

    def is_statement(self):
        """Whether it is a statement: a type with no argument."""
        return bool(re.match(r"^(?:abbrev )?pub (?:record )?\S+ : Type 0(?: where)?$", self.lines[0])) and not any(": ℤ" in l for l in self.lines)


def strip_comment(line):
    at = line.find("-- ") if not line.lstrip().startswith("--") else line.find("--")
    return line if at < 0 else line[:at].rstrip()


def items(path):
    """The items of one .antt file, and its import lines."""
    uses, found, pending, blocks = [], [], [], []
    item, indent_of_item, header = None, 0, None
    for line in open(path, encoding="utf-8").read().split("\n"):
        bare = line.strip()
        indent = len(line) - len(line.lstrip())
        if not bare:
            pending = []
            continue
        if bare.startswith("--"):
            pending.append(bare)
            continue
        if bare.startswith("use ") or bare.startswith("pub use "):
            uses.append(bare)
            pending = []
            continue
        if bare.startswith(("infix", "pub mod", "mod ")):
            continue
        code = strip_comment(bare)
        if header is None:
            while blocks and indent <= blocks[-1][0]:
                blocks.pop()
        if header or re.match(r"^module ", code):
            header = (header[0], header[1] + " " + code) if header else (indent, code)
            if code.endswith("where"):
                blocks.append(header)
                header = None
            item, pending = None, []
            continue
        inside = item is not None and indent > indent_of_item
        same = item is not None and indent == indent_of_item and (belongs(item, code) or code.startswith("unfolding "))
        if inside or same:
            item.lines.append(code)
            if inside and item.kind:
                part = re.match(r"^(?:pub )?([^\s:{(]+)\s*:", code)
                if part:
                    item.parts.append(part.group(1))
            pending = []
            continue
        head = HEAD.match(code)
        if head and (head.group("kind") or SIGNATURE.match(code)):
            item = Item(head.group("name"), path, head.group("kind"), "pub" in head.group("marks"))
            item.lines, item.comment, item.around = [code], pending, [b[1] for b in blocks]
            indent_of_item, pending = indent, []
            found.append(item)
        pending = []
    return found, uses


def belongs(item, code):
    """Whether a line at the item's own indentation is one of its clauses."""
    if item.name.startswith("◌"):
        return all(part in code.split("=")[0].split() for part in item.name.split("◌") if part)
    return bool(re.match(re.escape(item.name) + r"(?=[\s=(]|$)", code)) and not SIGNATURE.match(code)


def declared(path):
    """The structs and enums of one .rt file."""
    found, item = [], None
    for line in open(path, encoding="utf-8").read().split("\n"):
        head = re.match(r"^(?:pub )?(struct|enum) ([A-Za-z0-9_]+)", line)
        if head:
            item = Item(head.group(2), path, head.group(1), line.startswith("pub"))
            found.append(item)
        if item:
            item.lines.append(line)
            part = re.match(r"^    ([A-Z][A-Za-z0-9_]*)", line)
            if part and item.kind == "enum":
                item.parts.append(part.group(1))
            if line.startswith("}"):
                item = None
    return found


def relative(path):
    return os.path.relpath(path, ROOT)


class House:
    """Every item of the repository, where each name stands, and what each file imports."""

    def __init__(self):
        self.crates = [l.split(":")[0].split()[0] for l in open(os.path.join(ROOT, "crates.txt"), encoding="utf-8") if ":" in l and not l.startswith("#")]
        self.modules, self.uses, self.types = {}, {}, {}
        for crate in self.crates:
            base = os.path.join(ROOT, "crates", crate)
            for part in ("specs", "proofs"):
                for path in sorted(glob.glob(os.path.join(base, part, "*.antt"))):
                    name = os.path.basename(path)[:-5]
                    if name != "Lib":
                        self.modules[(crate, part + "." + name)], self.uses[path] = items(path)
            for path in sorted(glob.glob(os.path.join(base, "src", "*.rt"))):
                inner = os.path.basename(path)[:-3]
                for item in declared(path):
                    where = item.name if inner in ("lib", "main") else inner + "." + item.name
                    self.types[(crate, "specs.declared." + where)] = item

    def all(self):
        return [item for found in self.modules.values() for item in found]

    def named(self, crate, module, name):
        """The item of that name in a module, a record's or datatype's part standing for the whole."""
        key = module[: -len(".TheVariants")] if module.endswith(".TheVariants") else module
        if (crate, key) in self.types:
            return self.types[(crate, key)]
        for item in self.modules.get((crate, module), []):
            if item.name == name or (item.kind == "data" and name in item.parts):
                return item
        return None

    def scope(self, uses, own):
        """What each name of a file means: its own items, and those that it imports."""
        names, aliases = {}, {}
        for line in uses:
            use = USE.match(line)
            if not use:
                continue
            crate, path = use.group("crate"), use.group("path")
            if use.group("alias"):
                aliases[use.group("alias")] = (crate, path)
                continue
            for word in (use.group("names") or "").split(","):
                old, _, new = word.strip().partition(" as ")
                item = self.named(crate, path, old)
                if item:
                    names[new or old] = item
        for item in own:
            names[item.name] = item
            if item.kind == "data":
                names.update({part: item for part in item.parts})
        return names, aliases

    def cited(self, text, scope):
        """The items that a text cites."""
        names, aliases = scope
        found = set()
        for word in WORD.findall(text):
            if word.startswith("."):
                continue
            word = word.rstrip(".:")
            if word in names:
                found.add(names[word])
                continue
            first, _, rest = word.partition(".")
            if rest and first in aliases:
                crate, path = aliases[first]
                item = self.named(crate, path, rest.split(".")[0])
                if item:
                    found.add(item)
            elif first in names:
                found.add(names[first])
            for piece in re.findall(r"[^\s.]+", word):
                if piece in names and rest:
                    found.add(names[piece])
        for name in names:
            pieces = [p for p in name.split("◌") if p]
            if name.startswith("◌") and name.endswith("◌") and pieces and all(re.search(r"(?<!\S)" + re.escape(p) + r"(?!\S)", text) for p in pieces):
                found.add(names[name])
        return found

    def scopes(self):
        """The scope of every module's file."""
        return {item.path: self.scope(self.uses[item.path], found) for found in self.modules.values() for item in found[:1]}


def contracts(path):
    """The functions of an .rt file with their contracts, each with whether it is exported, and the file's `ghost use` lines."""
    text = open(path, encoding="utf-8").read()
    uses = [l.strip() for l in text.split("\n") if l.strip().startswith("ghost use")]
    found = []
    for match in re.finditer(r"^(?P<head>[^\n/]*\bfn (?P<name>[a-z0-9_]+)\()", text, re.M):
        body = re.search(r"\n *\{\n", text[match.start():])
        clause = text[match.start(): match.start() + body.start()] if body else ""
        found.append((match.group("name"), 'extern "C"' in match.group("head"), "\n".join(re.findall(r"(?:requires|ensures|ghost)(?: [a-z_]+)? \{.*", clause))))
    return found, uses
