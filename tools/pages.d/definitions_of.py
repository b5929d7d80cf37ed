"""The public definitions of specs/, with what stands about them in their files."""
import pathlib
import re
from collections.abc import Iterator
from dataclasses import dataclass, field

DEFINES = re.compile(r"^( *)(?:(?:abbrev|unfoldable) pub|pub (record|data)|pub(?= \S+ :)) (\S+)(.*)")
NEXT = re.compile(r" *(--|mutual$|module |data |record |abbrev |unfoldable |pub )")
USES = re.compile(r"\buse Rattle\.([\w.]+?)(?:\.\{(.*?)\}| as (\w+))", re.DOTALL)
WORD = re.compile(r"[^\s(){}\[\],;.\"λ]+")


@dataclass
class Imports:
    """What names stand for in a file: a name, or a name behind an alias, for a definition of a module."""

    names: dict[str, tuple[str, str, str]] = field(default_factory=dict)
    aliases: dict[str, tuple[str, str]] = field(default_factory=dict)


@dataclass
class Definition:
    """A public definition: what it is called, what it takes, what its file says of it, and its text."""

    crate: str
    module: str
    file: str
    name: str
    signature: str
    comment: str
    given: str
    text: str
    variants: list[str]

    @property
    def key(self) -> tuple[str, str, str]:
        return self.crate, self.module, self.name


@dataclass
class Spec:
    """A file of definitions."""

    crate: str
    module: str
    file: str
    head: str
    imports: Imports
    definitions: list[Definition]


def imports_of(text: str) -> Imports:
    """What a file takes from the specs of crates."""
    found = Imports()
    for path, names, alias in USES.findall(text):
        crate, _, module = path.partition(".specs.")
        if alias:
            found.aliases[alias] = crate, module
        for name in re.split(r",\s*", names.strip().rstrip(",")):
            ours, _, called = name.partition(" as ")
            found.names[called or ours] = crate, module, ours
    return found


def indent_of(line: str) -> int:
    """How far in a line begins."""
    return len(line) - len(line.lstrip(" "))


def comment_above(lines: list[str], at: int) -> str:
    """The comment that ends right above a line, as one text."""
    begun = at
    while begun > 0 and lines[begun - 1].lstrip().startswith("--"):
        begun -= 1
    return " ".join(" ".join(line.strip().removeprefix("--") for line in lines[begun:at]).split())


def signature_of(lines: list[str], at: int, kind: str | None) -> str:
    """What a definition is called and takes, on one line: all up to its equations, or up to its `where`."""
    begins, depth = DEFINES.match(lines[at]), indent_of(lines[at])
    text = begins[3] + begins[4]
    for line in lines[at + 1 :]:
        if kind and re.search(r"\bwhere$", text) or not line.strip() or indent_of(line) <= depth:
            break
        text += " " + line.strip()
    return re.sub(r"\s*\bwhere$", "", text)


def block_behind(lines: list[str], at: int) -> list[str]:
    """The lines of a definition from its first on: its equations stand as far in as it does, or further."""
    depth, end = indent_of(lines[at]), at + 1
    while end < len(lines) and (not lines[end].strip() or indent_of(lines[end]) >= depth):
        if indent_of(lines[end]) == depth and NEXT.match(lines[end]):
            break
        end += 1
    return lines[at:end]


def given_at(lines: list[str], at: int) -> str:
    """What the modules around a line take, which each of their definitions takes before the rest."""
    depth, given = indent_of(lines[at]), []
    for line in reversed(lines[:at]):
        if line.strip() and indent_of(line) < depth and not line.lstrip().startswith("--"):
            depth = indent_of(line)
            inner = re.match(r" *module _ (.*) where$", line)
            given += [inner[1]] if inner else []
    return " ".join(reversed(given))


def fields_from(lines: list[str]) -> Iterator[int]:
    """The numbers of the lines that are fields of a record, which have a form like a definition's."""
    record = None
    for at, line in enumerate(lines):
        if not line.strip() or line.lstrip().startswith("--"):
            continue
        if record is not None and indent_of(line) > record:
            yield at
            continue
        begins = DEFINES.match(line)
        record = indent_of(line) if begins and begins[2] or re.match(r" *(record|data) ", line) else None


def read_spec(crate: str, folder: pathlib.Path, path: pathlib.Path, top: pathlib.Path) -> Spec:
    """The definitions of a file."""
    text = path.read_text(encoding="utf-8")
    lines = text.split("\n")
    module = ".".join(path.relative_to(folder).with_suffix("").parts)
    file = str(path.relative_to(top))
    inside = set(fields_from(lines))
    first = next((at for at, line in enumerate(lines) if not line.startswith("--")), 0)
    spec = Spec(crate, module, file, comment_above(lines, first), imports_of(text), [])
    for at, line in enumerate(lines):
        begins = DEFINES.match(line)
        if begins and at not in inside:
            body = block_behind(lines, at)
            variants = re.findall(r"^ +(\S+) :", "\n".join(body), re.MULTILINE) if begins[2] == "data" else []
            comment = comment_above(lines, at) if at > first else ""
            spec.definitions.append(
                Definition(crate, module, file, begins[3], signature_of(lines, at, begins[2]), comment, given_at(lines, at), "\n".join(body), variants)
            )
    return spec


def specs_of(crate: str, top: pathlib.Path) -> list[Spec]:
    """The files of a crate that have public definitions."""
    folder = top / "crates" / crate / "specs"
    read = (read_spec(crate, folder, path, top) for path in sorted(folder.rglob("*.antt")))
    return [spec for spec in read if spec.definitions]


class Names:
    """All public definitions, found by what a file calls them."""

    def __init__(self, specs: list[Spec]) -> None:
        self.all = {it.key: it for spec in specs for it in spec.definitions}
        self.variants = {(it.crate, it.module, name): it.key for it in self.all.values() for name in it.variants}

    def find(self, crate: str, module: str, name: str) -> tuple[str, str, str] | None:
        """The definition that a module has under this name, or that has a variant of this name."""
        key = crate, module, name
        if key in self.all:
            return key
        outer, _, data = module.rpartition(".")
        return self.variants.get(key) or ((crate, outer, data) if (crate, outer, data) in self.all else None)

    def cited(self, text: str, imports: Imports, own: dict[str, tuple[str, str, str]]) -> set[tuple[str, str, str]]:
        """The definitions that a text names, in a file with these imports and these definitions of its own."""
        words = set(WORD.findall(re.sub(r"(?<=[\w)])\.[^\s(){}\[\],;.\"λ]+", "", text)))
        found = {own[word] for word in words if word in own}
        for called, (crate, module, name) in imports.names.items():
            if called.strip("◌").split("◌")[0] in words:
                found.add(self.find(crate, module, name))
        for alias, (crate, module) in imports.aliases.items():
            for name in re.findall(rf"(?<![\w.]){re.escape(alias)}\.([^\s(){{}}\[\],;.\"]+)", text):
                found.add(self.find(crate, module, name))
        return found - {None}
