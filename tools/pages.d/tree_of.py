"""All that the pages are made of: the crates in their layers, their definitions, their code, and the prefaces."""
import pathlib
import re
from dataclasses import dataclass

from definitions_of import Names, Spec, specs_of
from items_of import Code, code_of
from prefaces_of import Prefaces, prefaces_of


@dataclass
class Layer:
    """Crates of one height, below a line that says what they are for."""

    title: str
    crates: list[str]


@dataclass
class Tree:
    """The repository, as the pages see it."""

    top: pathlib.Path
    layers: list[Layer]
    needs: dict[str, list[str]]
    specs: dict[str, list[Spec]]
    code: dict[str, Code]
    names: Names
    prefaces: dict[str, Prefaces]

    @property
    def crates(self) -> list[str]:
        return [crate for layer in self.layers for crate in layer.crates]


def layers_of(text: str) -> list[Layer]:
    """The layers of crates.txt, the lowest first."""
    layers: list[Layer] = []
    for line in text.split("\n"):
        crate = re.match(r"(\w+)\b.*?:", line)
        if line.startswith("#"):
            layers.append(Layer(line.lstrip("# ").strip(), []))
        elif crate:
            layers[-1].crates.append(crate[1])
    return [layer for layer in layers if layer.crates]


def tree_at(top: pathlib.Path) -> Tree:
    """Reads the repository."""
    text = (top / "crates.txt").read_text(encoding="utf-8")
    layers = layers_of(text)
    crates = [crate for layer in layers for crate in layer.crates]
    needs = {it[1]: it[2].split() for it in re.finditer(r"^(\w+)\b[^:#\n]*:(.*)$", text, re.MULTILINE)}
    specs = {crate: specs_of(crate, top) for crate in crates}
    names = Names([spec for of_crate in specs.values() for spec in of_crate])
    return Tree(top, layers, needs, specs, {crate: code_of(crate, top) for crate in crates}, names, prefaces_of(top))
