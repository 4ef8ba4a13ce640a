"""Names, constants and types of Rattle source: what a path names, what a length is, how large a type is and which
arrays a value of it holds. What cannot be told is refused with `Unknown`.
"""

import re
import shutil
from pathlib import Path
from typing import Iterator, NamedTuple, Optional, Union

from rattle_source import Const, Cursor, Declared, Function, Module, Token, Type, Unknown, read_crate

SCALARS = {"bool": 1, "u8": 1, "i8": 1, "u16": 2, "i16": 2, "u32": 4, "i32": 4, "f32": 4}
SCALARS |= {"u64": 8, "i64": 8, "f64": 8, "usize": 8, "isize": 8}
POINTER_SIZE = 8
REFERENCE_SIZE = 16  # a pointer and a length
TAG_SIZE = 8
STANDARD_TYPES = {"Option", "Result", "Range"}  # of their arguments alone: the first two with a tag, a range with two of its own
STANDARD = ("core", "std", "std_alloc", "std_collections", "std_heap", "std_io")  # what every crate uses unlisted


class Variant(NamedTuple):
    declared: Declared
    name: str


class Held(NamedTuple):
    """An array that a value holds, or, where it is lent, that it only points to."""

    text: str
    size: int
    lent: bool


Found = Union[Module, Declared, Variant, Const, Function, None]


def kit_folder() -> list[Path]:
    """The folder of the Rattle kit's libraries, where `rt` is on the PATH."""
    command = shutil.which("rt")
    return [Path(command).resolve().parent.parent / "rattle"] if command else []


def round_up(size: int, unit: int) -> int:
    return -(-size // unit) * unit


class Source:
    """The crates of a repository and of the kit, read as they are asked for."""

    def __init__(self, root: Path) -> None:
        self.folders = [root / "crates"] + kit_folder()
        self.crates: dict[str, Optional[Module]] = {}
        self.names_of_kit: Optional[set[str]] = None

    def crate(self, name: str) -> Optional[Module]:
        if name not in self.crates:
            found = (read_crate(name, folder / name / "src") for folder in self.folders)
            self.crates[name] = next((crate for crate in found if crate), None)
        return self.crates[name]

    def methods(self, name: str, owner: str = "") -> list[Function]:
        """Every method of that name in the repository's libraries, of one type or of any. Nothing else can be meant: no
        library reaches what a program declares, and a method of the kit's is refused where the type is not known."""
        methods = [method for module in self.libraries() for method in module.methods]
        found = [method for method in methods if method.name == name and owner in ("", method.owner)]
        if found and not owner and name in self.kit_names():
            raise Unknown(f"whether the method '{name}' is {found[0]} or the kit's is not known")
        return found

    def libraries(self) -> list[Module]:
        """Every module of the repository's libraries."""
        names = sorted(root.parent.parent.name for root in self.folders[0].glob("*/src/lib.rt"))
        return [module for name in names if (crate := self.crate(name)) for module in crate.all()]

    def declares_method(self, name: str) -> bool:
        return any(method.name == name for module in self.libraries() for method in module.methods)

    def declared_types(self, name: str) -> list[Declared]:
        """Every type of that name in the repository's libraries."""
        found = [module.items.get(name) for module in self.libraries()]
        return [item for item in found if isinstance(item, Declared)]

    def kit_names(self) -> set[str]:
        """The functions that the kit's standard libraries declare. Their traits and generics are more than is read here."""
        if self.names_of_kit is None:
            sources = [source for folder in self.folders[1:] for crate in STANDARD for source in folder.glob(f"{crate}/src/**/*.rt")]
            texts = (source.read_text(encoding="utf-8") for source in sources)
            self.names_of_kit = {name for text in texts for name in re.findall(r"\bfn (\w+)", text)}
        return self.names_of_kit

    # ---- names

    def resolve(self, path: tuple[str, ...], module: Module, owner: str = "", used: tuple = ()) -> Found:
        """What a path names, seen from a module, in the methods of `owner`; None where nothing."""
        path = (owner,) + path[1:] if path[0] == "Self" else path
        starts = {"crate": module.root(), "self": module, "super": module.parent}
        found: Found
        if path[0] in starts and (len(path) > 1 or path[0] != "self"):
            found = starts[path[0]]
        else:
            found = self.member(module, path[0], len(path) == 1, used) or self.crate(path[0])
        for place, name in enumerate(path[1:], 2):
            found = self.inside(found, name, place == len(path), used)
        return found

    def inside(self, outer: Found, name: str, is_last: bool, used: tuple) -> Found:
        if isinstance(outer, Module):
            return self.member(outer, name, is_last, used)
        if isinstance(outer, Declared):
            if outer.is_enum and name in outer.variants:
                return Variant(outer, name)
            methods = [method for module in outer.module.root().all() for method in module.methods]
            return next((m for m in methods if (m.owner, m.name) == (outer.name, name)), None)
        return None

    def member(self, module: Module, name: str, is_last: bool, used: tuple) -> Found:
        """An item, a module below or an import. A module and a function may share a name."""
        own = [module.items.get(name), module.children.get(name)]
        found = next((thing for thing in (own if is_last else own[::-1]) if thing), None)
        if found or (module, name) in used:
            return found
        used += ((module, name),)
        if name in module.imports:
            return self.resolve(module.imports[name], module, used=used)
        outers = (self.resolve(path, module, used=used) for path in module.globs)
        return next((found for outer in outers if (found := self.inside(outer, name, is_last, used))), None)

    # ---- numbers

    def number(self, tokens: tuple[Token, ...], module: Module, local: Optional[dict[str, Const]] = None) -> int:
        """The value of a length or a constant: numbers, named constants, + - * / % and parentheses."""
        cursor = Cursor(list(tokens), module.file)
        value = self.sum(cursor, module, local or {})
        if cursor.text():
            text = " ".join(token.text for token in tokens)
            raise cursor.fail(f"the number '{text}' is not known")
        return value

    def sum(self, cursor: Cursor, module: Module, local: dict[str, Const]) -> int:
        value = self.product(cursor, module, local)
        while cursor.text() in ("+", "-"):
            sign = 1 if cursor.take() == "+" else -1
            value += sign * self.product(cursor, module, local)
        return value

    def product(self, cursor: Cursor, module: Module, local: dict[str, Const]) -> int:
        value = self.factor(cursor, module, local)
        while cursor.text() in ("*", "/", "%"):
            mark, other = cursor.take(), self.factor(cursor, module, local)
            if mark != "*" and other == 0:
                raise cursor.fail("a constant is divided by 0")
            value = value * other if mark == "*" else value // other if mark == "/" else value % other
        return value

    def factor(self, cursor: Cursor, module: Module, local: dict[str, Const]) -> int:
        if cursor.text() == "(":
            value = self.number(tuple(cursor.group()), module, local)
        elif cursor.kind() == "number":
            value = int(re.sub(r"[iu](8|16|32|64|size)$", "", cursor.take()), 0)
        elif cursor.kind() == "name":
            value = self.constant(cursor, module, local)
        else:
            raise cursor.fail(f"the number at '{cursor.text()}' is not known")
        while cursor.taken("as"):
            cursor.type()
        return value

    def constant(self, cursor: Cursor, module: Module, local: dict[str, Const]) -> int:
        path = cursor.path()
        found = local.get(path[0]) if len(path) == 1 else None
        found = found or self.resolve(path, module)
        if not isinstance(found, Const):
            raise cursor.fail(f"the constant '{'::'.join(path)}' is not known")
        return self.number(found.value, found.module, local if found.name in local else None)

    # ---- types

    def declared(self, kind: Type, module: Module, owner: str) -> Declared:
        found = self.resolve(kind.path, module, owner)
        if not isinstance(found, Declared):
            raise Unknown(f"the type '{kind}' is not known ({module.file})")
        return found

    def is_standard(self, kind: Type, module: Module, owner: str) -> bool:
        """The type is one of std's, known by what it is made of."""
        is_named = kind.kind == "name" and bool(kind.parts) and kind.path[-1] in STANDARD_TYPES
        return is_named and self.resolve(kind.path, module, owner) is None

    def size(self, kind: Type, module: Module, owner: str = "", local: Optional[dict[str, Const]] = None) -> int:
        """The bytes of a type. A struct has its fields in their order, an enum a tag and its largest variant."""
        if kind.kind == "lent":
            return REFERENCE_SIZE
        if kind.kind == "array":
            return self.number(kind.length, module, local) * self.size(kind.parts[0], module, owner, local)
        if kind.kind == "tuple":
            return sum(self.size(part, module, owner, local) for part in kind.parts)
        if kind.kind == "name" and kind.path[0] in SCALARS:
            return SCALARS[kind.path[0]]
        if kind.kind == "slice":
            raise Unknown(f"the size of '{kind}' is not known ({module.file})")
        if self.is_standard(kind, module, owner):
            sizes = [self.size(part, module, owner, local) for part in kind.parts]
            return 2 * sizes[0] if kind.path[-1] == "Range" else TAG_SIZE + max(sizes)
        return self.declared_size(self.declared(kind, module, owner))

    def declared_size(self, declared: Declared) -> int:
        bound = self.declared_alignment(declared)
        sizes = [TAG_SIZE if declared.is_enum else 0]
        for parts in declared.variants.values():
            end = sizes[0]
            for part in parts:
                end = round_up(end, self.alignment(part, declared.module, declared.name))
                end += self.size(part, declared.module, declared.name)
            sizes.append(round_up(end, bound))
        return max(sizes)

    def alignment(self, kind: Type, module: Module, owner: str = "") -> int:
        """The number of which an address of the type is a multiple."""
        if kind.kind in ("array", "tuple"):
            return max((self.alignment(part, module, owner) for part in kind.parts), default=1)
        if self.is_standard(kind, module, owner):
            return TAG_SIZE
        if kind.kind == "name" and kind.path[0] not in SCALARS:
            return self.declared_alignment(self.declared(kind, module, owner))
        return SCALARS[kind.path[0]] if kind.kind == "name" else POINTER_SIZE

    def declared_alignment(self, declared: Declared) -> int:
        parts = [part for parts in declared.variants.values() for part in parts]
        least = TAG_SIZE if declared.is_enum else 1
        return max([least] + [self.alignment(part, declared.module, declared.name) for part in parts])

    def held(
        self, kind: Type, module: Module, owner: str = "", local: Optional[dict[str, Const]] = None, where: str = ""
    ) -> Iterator[Held]:
        """The arrays that a value of the type holds.

        A lent slice or array is lent, and so are arrays that are its elements: what copies one is seen (an index, a `*`, a
        method of std). What its elements hold otherwise, and what a lent struct holds, could be copied out of it unseen and
        counts as held.
        """
        if kind.kind == "lent":
            element = kind.parts[0]
            while element.kind in ("array", "slice"):
                if element.kind == "array":
                    yield Held(f"{element}{where}", self.size(element, module, owner, local), True)
                element = element.parts[0]
            yield from self.held(element, module, owner, local, where + " behind a reference")
        elif self.is_standard(kind, module, owner):
            for part in kind.parts:
                yield from self.held(part, module, owner, local, where)
        elif kind.kind == "name":
            if kind.path[0] not in SCALARS:
                yield from self.declared_held(self.declared(kind, module, owner), where)
        else:
            if kind.kind == "array":
                yield Held(f"{kind}{where}", self.size(kind, module, owner, local), False)
            for part in kind.parts:
                yield from self.held(part, module, owner, local, where)

    def declared_held(self, declared: Declared, where: str = "") -> Iterator[Held]:
        where = f" in {declared.module}::{declared.name}{where}"
        for parts in declared.variants.values():
            for part in parts:
                yield from self.held(part, declared.module, declared.name, None, where)
