"""Rattle source read far enough for a search: tokens, modules, declared types and functions with their bodies.

What it does not know it refuses with `Unknown`, which names the file and the line. Contracts are skipped.
"""

import re
from dataclasses import dataclass, field
from pathlib import Path
from typing import NamedTuple, Optional, Union

TOKEN = re.compile(
    r"""
    (?P<space>\s+|//[^\n]*|/\*.*?\*/)
  | (?P<bytes>b"(?:\\.|[^"\\])*")
  | (?P<string>"(?:\\.|[^"\\])*")
  | (?P<byte>b'(?:\\.[^']*|[^'\\])')
  | (?P<lifetime>'[a-z_]\w*(?!'))
  | (?P<number>(?:0[xbo][0-9A-Fa-f_]+?|\d[\d_]*)(?:[iu](?:8|16|32|64|size))?\b)
  | (?P<name>[^\W\d]\w*)
  | (?P<mark>::|->|=>|\.\.=|\.\.|==|!=|<=|>=|\|\||[-+*/%&|^]=|.)
    """,
    re.VERBOSE | re.DOTALL,
)
CLOSING = {"(": ")", "[": "]", "{": "}"}


class Unknown(Exception):
    """Something that the search does not know, and so does not pass over."""


class Token(NamedTuple):
    kind: str
    text: str
    line: int


class Type(NamedTuple):
    """A type as written: kind is `name`, `lent`, `slice`, `array` or `tuple`. A name's parts are its type arguments."""

    kind: str
    parts: tuple["Type", ...] = ()
    path: tuple[str, ...] = ()
    length: tuple[Token, ...] = ()

    def __str__(self) -> str:
        inner = ", ".join(str(part) for part in self.parts)
        length = " ".join(token.text for token in self.length)
        name = "::".join(self.path) + (f"<{inner}>" if self.parts else "")
        shapes = {"name": name, "lent": "&" + inner, "slice": f"[{inner}]"}
        return shapes.get(self.kind) or (f"[{inner}; {length}]" if self.kind == "array" else f"({inner})")


@dataclass(eq=False)
class Declared:
    """A struct, an enum or a named type: the types that a value may hold. A struct's fields are one variant, ''."""

    name: str
    module: "Module"
    variants: dict[str, list[Type]]
    is_enum: bool = False
    fields: dict[str, Type] = field(default_factory=dict)


@dataclass(eq=False)
class Const:
    name: str
    module: "Module"
    type: Type
    value: tuple[Token, ...]


@dataclass(eq=False)
class Function:
    name: str
    module: "Module"
    parameters: dict[str, Type]
    result: Optional[Type]
    body: Optional[list[Token]]
    line: int
    owner: str = ""
    tests: frozenset[str] = frozenset()

    def __str__(self) -> str:
        return "::".join(part for part in (str(self.module), self.owner, self.name) if part)

    def is_test(self, kind: Type) -> bool:
        """The type is one of the function's own that stands for a closure, or a reference to it."""
        kind = kind.parts[0] if kind.kind == "lent" else kind
        return kind.kind == "name" and len(kind.path) == 1 and kind.path[0] in self.tests


@dataclass(eq=False)
class Module:
    path: tuple[str, ...]
    file: Path
    parent: Optional["Module"] = None
    items: dict[str, Union[Declared, Const, Function]] = field(default_factory=dict)
    children: dict[str, "Module"] = field(default_factory=dict)
    imports: dict[str, tuple[str, ...]] = field(default_factory=dict)
    globs: list[tuple[str, ...]] = field(default_factory=list)
    methods: list[Function] = field(default_factory=list)

    def __str__(self) -> str:
        return "::".join(self.path)

    def root(self) -> "Module":
        return self.parent.root() if self.parent else self

    def all(self) -> list["Module"]:
        return [self] + [below for child in self.children.values() for below in child.all()]


def tokens_of(text: str) -> list[Token]:
    line = 1
    found = []
    for match in TOKEN.finditer(text):
        if match.lastgroup != "space":
            found.append(Token(match.lastgroup or "mark", match.group(), line))
        line += match.group().count("\n")
    return found


class Cursor:
    """A place in a list of tokens."""

    def __init__(self, tokens: list[Token], file: Path, at: int = 0) -> None:
        self.tokens, self.file, self.at = tokens, file, at

    def text(self, ahead: int = 0) -> str:
        index = self.at + ahead
        return self.tokens[index].text if 0 <= index < len(self.tokens) else ""

    def kind(self) -> str:
        return self.tokens[self.at].kind if self.at < len(self.tokens) else ""

    def line(self) -> int:
        return self.tokens[min(self.at, len(self.tokens) - 1)].line if self.tokens else 0

    def fail(self, what: str) -> Unknown:
        return Unknown(f"{what} ({self.file}:{self.line()})")

    def take(self, wanted: str = "") -> str:
        text = self.text()
        if not text or (wanted and text != wanted):
            raise self.fail(f"'{wanted or 'more'}' expected, '{text}' found")
        self.at += 1
        return text

    def taken(self, wanted: str) -> bool:
        if self.text() == wanted:
            self.at += 1
            return True
        return False

    def group(self) -> list[Token]:
        """The tokens between the bracket here and its partner, which is passed."""
        first, depth = self.at + 1, 0
        while True:
            text = self.take()
            depth += (text in CLOSING) - (text in CLOSING.values())
            if depth == 0:
                return self.tokens[first : self.at - 1]

    def until(self, *ends: str) -> list[Token]:
        """The tokens up to one of the ends outside brackets, which is not passed."""
        first = self.at
        while self.text() not in ends:
            if self.text() in CLOSING:
                self.group()
            else:
                self.take()
        return self.tokens[first : self.at]

    def generics(self) -> frozenset[str]:
        """Passes `<'a, const N: usize, F: Fn(..) -> T>`: the types that stand for a closure. No other type is known."""
        tests = set()
        if self.taken("<"):
            while not self.taken(">"):
                if self.taken("const"):
                    self.take()
                    self.take(":")
                    self.type()
                elif self.kind() == "name" and self.text(1) == ":" and self.text(2) == "Fn":
                    tests.add(self.take())
                    self.at += 2
                    self.group()
                    if self.taken("->"):
                        self.type()
                elif self.kind() == "lifetime" or self.text() in (",", ":", "+"):
                    self.at += 1
                else:
                    raise self.fail(f"the generic parameter '{self.text()}' is not known")
        return frozenset(tests)

    def arguments(self) -> tuple[Type, ...]:
        """Passes `<'a, T, 4>`: the types in it."""
        found = []
        if self.taken("<"):
            while not self.taken(">"):
                if self.kind() in ("lifetime", "number") or self.text() == ",":
                    self.at += 1
                else:
                    found.append(self.type())
        return tuple(found)

    def attributes(self) -> None:
        """Passes `#[unsafe(no_mangle)]` and the like. One that changes what is compiled is refused."""
        while self.text() == "#":
            self.at += 1
            self.taken("!")
            for token in self.group():
                if token.text in ("cfg", "cfg_attr", "path"):
                    raise self.fail(f"the attribute '{token.text}' is not known")

    def path(self) -> tuple[str, ...]:
        parts = [self.take()]
        while self.text() == "::" and self.text(1) not in ("{", "*", "<"):
            self.at += 1
            parts.append(self.take())
        return tuple(parts)

    def type(self) -> Type:
        text = self.text()
        if text == "&":
            return self.lent_type()
        if text == "[":
            inside = Cursor(self.group(), self.file)
            element = inside.type()
            if not inside.text():
                return Type("slice", (element,))
            inside.take(";")
            return Type("array", (element,), length=tuple(inside.tokens[inside.at :]))
        if text == "(":
            return Type("tuple", tuple(types_in(Cursor(self.group(), self.file)).values()))
        if self.kind() != "name" or text in ("dyn", "fn", "impl"):
            raise self.fail(f"the type at '{text}' is not known")
        path = self.path()
        return Type("name", self.arguments(), path)

    def lent_type(self) -> Type:
        self.take("&")
        if self.kind() == "lifetime":
            self.at += 1
        self.taken("mut")
        return Type("lent", (self.type(),))


def types_in(cursor: Cursor, named: bool = False) -> dict[str, Type]:
    """Types with commas between them, each after `pub` and, where named, its field's name; else by their numbers. A ghost
    field takes no room, and is passed over."""
    found: dict[str, Type] = {}
    while cursor.text():
        visibility(cursor)
        if named and cursor.text() == "ghost":
            while cursor.text() and not cursor.taken(","):
                cursor.group() if cursor.text() in CLOSING else cursor.take()
            continue
        name = cursor.take() if named else str(len(found))
        if named:
            cursor.take(":")
        found[name] = cursor.type()
        cursor.taken(",")
    return found


def visibility(cursor: Cursor) -> None:
    cursor.attributes()
    if cursor.taken("pub") and cursor.text() == "(":
        cursor.group()


class Items:
    """The items of a module, read into it."""

    def __init__(self, module: Module, cursor: Cursor, folder: Path) -> None:
        self.module, self.cursor, self.folder = module, cursor, folder

    def read(self) -> Module:
        self.cursor.attributes()
        while self.cursor.text():
            visibility(self.cursor)
            self.item(self.cursor.take())
        return self.module

    def item(self, word: str) -> None:
        readers = {"ghost": self.ghost, "use": self.use, "mod": self.mod, "const": self.const, "type": self.named_type}
        readers |= {"struct": self.struct, "enum": self.enum, "impl": self.impl, "extern": self.extern}
        if word == "fn":
            function = self.function()
            self.module.items[function.name] = function
        elif word in readers:
            readers[word]()
        else:
            raise self.cursor.fail(f"the item '{word}' is not known")

    def ghost(self) -> None:
        self.cursor.until(";")
        self.cursor.take(";")

    def use(self) -> None:
        self.use_tree(self.cursor, ())
        self.cursor.take(";")

    def use_tree(self, cursor: Cursor, before: tuple[str, ...]) -> None:
        if cursor.text() == "{":
            inside = Cursor(cursor.group(), cursor.file)
            while inside.text():
                self.use_tree(inside, before)
                inside.taken(",")
        elif cursor.taken("*"):
            self.module.globs.append(before)
        else:
            path = before + cursor.path()
            if cursor.taken("::"):
                self.use_tree(cursor, path)
                return
            path = path[:-1] if path[-1] == "self" else path
            self.module.imports[cursor.take() if cursor.taken("as") else path[-1]] = path

    def mod(self) -> None:
        name = self.cursor.take()
        path = self.module.path + (name,)
        if self.cursor.text() == "{":
            below = Module(path, self.module.file, self.module)
            inside = Cursor(self.cursor.group(), self.module.file)
            self.module.children[name] = Items(below, inside, self.folder / name).read()
            return
        self.cursor.take(";")
        files = [self.folder / f"{name}.rt", self.folder / name / "mod.rt"]
        file = next((file for file in files if file.is_file()), None)
        if file is None:
            raise self.cursor.fail(f"the module '{name}' has no file")
        self.module.children[name] = read_module(Module(path, file, self.module), self.folder / name)

    def const(self) -> None:
        const = read_const(self.cursor, self.module)
        self.module.items[const.name] = const

    def named_type(self) -> None:
        name = self.cursor.take()
        self.cursor.generics()
        self.cursor.take("=")
        self.declare(name, {"": [self.cursor.type()]})
        self.cursor.take(";")

    def struct(self) -> None:
        name = self.cursor.take()
        self.cursor.generics()
        fields = self.fields()
        self.declare(name, {"": list(fields.values())})
        self.module.items[name].fields = fields
        self.cursor.taken(";")

    def fields(self) -> dict[str, Type]:
        """What stands after the name of a struct or a variant."""
        opening = self.cursor.text()
        if opening not in ("{", "("):
            return {}
        return types_in(Cursor(self.cursor.group(), self.module.file), named=opening == "{")

    def enum(self) -> None:
        name = self.cursor.take()
        self.cursor.generics()
        outside, self.cursor = self.cursor, Cursor(self.cursor.group(), self.module.file)
        variants = {}
        while self.cursor.text():
            self.cursor.attributes()
            variant = self.cursor.take()
            variants[variant] = list(self.fields().values())
            if self.cursor.text():
                self.cursor.until(",")
                self.cursor.take(",")
        self.cursor = outside
        self.declare(name, variants, is_enum=True)

    def declare(self, name: str, variants: dict[str, list[Type]], is_enum: bool = False) -> None:
        self.module.items[name] = Declared(name, self.module, variants, is_enum)

    def impl(self) -> None:
        self.cursor.generics()
        owner = self.cursor.type().path[-1]
        if self.cursor.taken("for"):
            owner = self.cursor.type().path[-1]
        outside, self.cursor = self.cursor, Cursor(self.cursor.group(), self.module.file)
        while self.cursor.text():
            visibility(self.cursor)
            if self.cursor.taken("ghost"):
                self.ghost()
                continue
            self.cursor.take("fn")
            self.module.methods.append(self.function(owner))
        self.cursor = outside

    def extern(self) -> None:
        if self.cursor.kind() == "string":
            self.cursor.take()
        if self.cursor.text() == "{":
            outside, self.cursor = self.cursor, Cursor(self.cursor.group(), self.module.file)
            self.read()
            self.cursor = outside
        else:
            self.cursor.take("fn")
            self.item("fn")

    def function(self, owner: str = "") -> Function:
        cursor = self.cursor
        line, name = cursor.line(), cursor.take()
        tests = cursor.generics()
        parameters = self.parameters(Cursor(cursor.group(), self.module.file), owner)
        result = cursor.type() if cursor.taken("->") else None
        while cursor.kind() == "name":
            cursor.until("{")
            cursor.group()
        body = None if cursor.taken(";") else cursor.group()
        return Function(name, self.module, parameters, result, body, line, owner, tests)

    def parameters(self, cursor: Cursor, owner: str) -> dict[str, Type]:
        found = {}
        while cursor.text():
            cursor.attributes()
            lent = cursor.taken("&")
            if cursor.kind() == "lifetime":
                cursor.take()
            cursor.taken("mut")
            name = cursor.take()
            if name == "self" and cursor.text() != ":":
                held = Type("name", path=(owner,))
                found[name] = Type("lent", (held,)) if lent else held
            else:
                cursor.take(":")
                found[name] = cursor.type()
            cursor.taken(",")
        return found


def read_const(cursor: Cursor, module: Module) -> Const:
    """A constant, after the word `const`."""
    name = cursor.take()
    cursor.take(":")
    kind = cursor.type()
    cursor.take("=")
    value = cursor.until(";")
    cursor.take(";")
    return Const(name, module, kind, tuple(value))


def read_module(module: Module, folder: Path) -> Module:
    tokens = tokens_of(module.file.read_text(encoding="utf-8"))
    return Items(module, Cursor(tokens, module.file), folder).read()


def read_crate(name: str, source: Path) -> Optional[Module]:
    """The crate in a folder `src`, or None where there is none."""
    for root in ("lib.rt", "main.rt"):
        if (source / root).is_file():
            return read_module(Module((name,), source / root), source)
    return None
