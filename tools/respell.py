#!/usr/bin/env python3
"""Renames the repository's own names from kebab case to snake case, in every crate: the second step of docs/PORT.md.

usage: tools/respell.py [--write] [--docs] [--names FILE] [TOP]

It reads TOP/crates/*/{src/*.rt, specs, proofs, must-fail/*.edit}. Without --write it only reports.

Own names: what specs/*.antt and proofs/*.antt of the repository's crates declare by a signature (definitions, lemmas,
constructors, record fields, rulesets, data and records). Nothing else turns: a name of the kit, a name that Rattle makes
of the source (goal names, fields of c), a Rust name, a string, a file's name. A name that a file brings in from the kit
stays in that file, and so does one that a proof file heads a clause with and nothing declares.
Local names (bound by a λ, a let or a pattern) with a dash turn in the files of proofs/ that are not a function's.

The rule for a dash:
  - in a definition, a constructor, a field, a ruleset, a local name: '_'
  - in a lemma (declared in proofs/, neither abbrev nor unfoldable): a dash stays only where what stands on both of its
    sides is the name of a thing (the repository's, or one that the file brings in) that the lemma's own statement
    cites; every other dash is '_'. So `length-bytes-of : length (bytes-of n v) ≡ n` is `length-bytes_of`, and
    `old-order-or-without-the-slot` is `old_order_or_without_the_slot`.
A definition whose value is a type is a fact, and in upper camel case, also one of a single word.
The names of CHOSEN go before these rules.

--docs: code spans of TOP/*.md and TOP/docs/*.md turn too, but for paths, files and commands. --names FILE: where the table
of old and new names is written. A name that would fall together with another is reported and left as it is."""
import collections, os, re, sys

WORD = r"[^\s(){}\[\].;,@\"«»:|]+"
TOKEN = re.compile(r"[^\s(){}.;,@\"«»]+")
NAME = re.compile(r"[^\W\d_][\w'′]*(?:-[\w'′]+)+\Z")            # has a dash inside
QUIET = re.compile(r'"(?:[^"\\\n]|\\.)*"|(?<![^\s(){}.;,@"«»])--[^\n]*|\{-.*?-\}', re.S)
RUST = re.compile(r"""//[^\n]*|/\*.*?\*/|[bc]?r(#*)".*?"\1|[bc]?"(?:\\.|[^"\\])*"|b?'(?:\\u\{[0-9a-fA-F_]+\}|\\x..|\\.|[^'\\])'""", re.S)
CLAUSE = re.compile(r"(?:\brequires|\bensures)\s*\*?\s*(?:\w+\s*)?\{|\bghost\s+use\b|\bghost\b[^;{}]*\{|\binvariant\b[^;{}]*\{|\bby\s*\{")
SIGN = re.compile(r"^( *)((?:pub |abbrev |unfoldable |private )*)(" + WORD + r"(?: " + WORD + r")*) :(?= |$)", re.M)
BLOCK = re.compile(r"^( *)(?:pub |abbrev |unfoldable )*(data|record|module|mutual|ruleset)\b *([^\n]*)", re.M)
USE = re.compile(r"^\s*(?:ghost )?(?:pub )?use ([^\s{};]+?)(?:\.\{([^}]*)\})?(?: as \S+?)?;?\s*$", re.M)
KEYWORDS = {"as", "in", "data", "record", "open", "use", "let", "elim", "where", "module", "mutual", "ruleset", "pub", "abbrev", "unfolding", "unfoldable", "mod", "syntax", "Type"}
MADE_NAME = re.compile(r"(?:invariant|decreases|returns|loop|overflow_\w+|nonzero_\w+|bounds|slice_bounds|invariant_of)-")   # goals, as Rattle names them
MADE = {"Answers.antt", "Invariants.antt", "Proof.antt"}


# records of more than one word, and names that several modules declare and that have one spelling
CHOSEN = {
    "Last-word-begins": "LastWordBegins",
    "cut-finished": "cut_finished",
    "length-places": "length_places",
    "new-is-slot": "new_is_slot",
    "new-name": "new_name",
    "none-some": "none_some",
    "old-is-slot": "old_is_slot",
    "refused-given": "refused_given",
    "steps-listed": "steps_listed",
}


def blanked(text, pattern):
    return pattern.sub(lambda m: re.sub(r"[^\n]", " ", m[0]), text)


def files_of(top):
    for crate in sorted(os.listdir(f"{top}/crates")):
        for part in ("src", "specs", "proofs", "must-fail"):
            for at, folders, files in os.walk(f"{top}/crates/{crate}/{part}"):
                folders.sort()
                for it in sorted(files):
                    if it.endswith((".rt", ".antt", ".edit")):
                        yield crate, part, f"{at}/{it}"


def is_function_file(path):
    return os.path.basename(path) in MADE and "/proofs/" in path


def module_of(crate, part, path):
    inner = path.split(f"/{crate}/{part}/", 1)[1].removesuffix(".antt").replace("/", ".")
    return f"Rattle.{crate}.{part}" + ("" if inner == "Lib" else f".{inner}")


def imports(text, own):
    """What a file brings in: from the kit, and from own crates."""
    kit, ours = set(), {}
    for m in USE.finditer(text):
        names = {w for part in (m[2] or "").split(",") for w in part.split()[:1] + part.split()[2:]}
        path = m[1].split(".")
        if path[0] == "Rattle" and len(path) > 1 and path[1] in own:
            ours.update({it: m[1] for it in names})
        else:
            kit.update(names)
    return kit, ours


def declared(text):
    """Yields (name, kind, marks, statement) of each signature of an .antt file."""
    code = blanked(text, QUIET)
    blocks = [(m.start(), len(m[1]), m[2], m[3]) for m in BLOCK.finditer(code)]
    for m in BLOCK.finditer(code):
        if m[2] in ("data", "record", "ruleset"):
            head = m[3].split()
            if head:
                yield head[0], "ruleset" if m[2] == "ruleset" else "type", m[0], m[3]
    for m in SIGN.finditer(code):
        indent, kind = len(m[1]), None
        for at, deep, word, rest in reversed(blocks):
            if at < m.start() and deep < indent:
                # the nearest block that this line is inside of: no shallower line between
                between = code[at:m.start()].split("\n")[1:-1] if at < m.start() else []
                if all(not it.strip() or len(it) - len(it.lstrip()) > deep for it in between):
                    kind = {"data": "constructor", "record": "field"}.get(word)
                    break
        rest = code[m.end():]
        stop = re.search(r"^ {0,%d}\S" % indent, rest[rest.find("\n") + 1:] if "\n" in rest else "", re.M)
        said = rest[: rest.find("\n") + 1 + stop.start()] if stop and "\n" in rest else rest
        for name in m[3].split():
            if name in KEYWORDS or name.startswith(("λ", "→", "∷")):
                continue
            yield name, kind or "def", m[2], said


def camel(name):
    return "".join(it[:1].upper() + it[1:] for it in re.split("[-_]", name))


def value_is_type(said):
    tail = re.split(r"→", said)[-1].strip()
    return bool(re.fullmatch(r"Type(?: \d+)?", tail))


def spelled(name, kind, marks, said, part, known):
    if kind == "def" and value_is_type(said):
        return camel(name)
    if "-" not in name:
        return name
    lemma = part == "proofs" and kind == "def" and not re.search("abbrev|unfoldable", marks)
    if not lemma:
        return name.replace("-", "_")
    parts, cited = name.split("-"), {it for it in TOKEN.findall(said) if it in known}
    cited -= {w for m in re.finditer(r"[({]([^(){}:]+) :", said) for w in m[1].split()}      # variables
    pieces, at = [], 0
    while at < len(parts):
        for to in range(len(parts), at, -1):
            if (to - at < len(parts)) and cited & {"-".join(parts[at:to]), "_".join(parts[at:to])}:
                pieces.append(("_".join(parts[at:to]), True))
                break
        else:
            to = at + 1
            pieces.append((parts[at], False))
        at = to
    out = pieces[0][0]
    # (with a dash that an earlier run kept, 'create-refused_42' is read as that run read 'create-refused-42')
    for (word0, one), (word, two) in zip(pieces, pieces[1:]):
        one = one or any(word0.endswith("_" + it) for it in cited)
        two = two or any(word.startswith(it + "_") for it in cited)
        out += ("-" if one and two else "_") + word
    return out


def clauses(text):
    """The spans of a .rt file that are clauses or ghost items."""
    code = blanked(text, RUST)
    for m in CLAUSE.finditer(code):
        if m[0].endswith("{"):
            deep, at = 1, m.end()
            while at < len(code) and deep:
                deep += (code[at] == "{") - (code[at] == "}")
                at += 1
            yield m.start(), at
        else:
            yield m.start(), code.find(";", m.end()) + 1


def main(words):
    options = {it[2:] for it in words if it in ("--write", "--docs")}
    rows_to = None
    rest, it = [], iter(words)
    for word in it:
        if word == "--names":
            rows_to = next(it)
        elif not word.startswith("--"):
            rest.append(word)
    top = rest[0] if rest else "."
    files = list(files_of(top))
    texts = {path: open(path, encoding="utf-8").read() for _, _, path in files}
    own = {crate for crate, _, _ in files}

    # 1. what the repository declares
    at, everything, facts_of = collections.defaultdict(list), collections.defaultdict(set), {}
    for crate, part, path in files:
        if path.endswith(".antt"):
            for name, kind, marks, said in declared(texts[path]):
                if is_function_file(path) and MADE_NAME.match(name):
                    continue
                at[name].append((path, kind, marks, said, part, module_of(crate, part, path)))
                everything[module_of(crate, part, path)].add(name)
    rows, unlike, exact = {}, [], {}
    for name, places in sorted(at.items()):
        found = collections.OrderedDict()
        for path, kind, marks, said, part, module in places:
            kit, ours = imports(texts[path], own)
            known = kit | set(ours) | everything[module]
            new = CHOSEN.get(name) or spelled(name, kind, marks, said, part, known)
            exact.setdefault((module, name), new)
            found.setdefault(new, []).append(module)
        if len(found) > 1:
            # a file takes the spelling of the module that it has the name from; where that can't be told, that of most, and '_' where as many
            best = sorted(found, key=lambda it: (-len(found[it]), it.count("-")))[0]
            unlike.append((name, {it: found[it] for it in found}, best))
        else:
            best = next(iter(found))
        if best != name:
            rows[name] = best

    # names that a module passes on (pub use) are spelled as where they come from
    passed_on = re.compile(r"^\s*pub use ([^\s{};]+?)\.\{([^}]*)\}", re.M)
    for _ in range(4):
        for crate, part, path in files:
            if path.endswith(".antt"):
                for m in passed_on.finditer(texts[path]):
                    for name in m[2].replace("\n", " ").split(","):
                        name = name.split(" as ")[0].strip()
                        if (m[1], name) in exact:
                            exact.setdefault((module_of(crate, part, path), name), exact[m[1], name])
    # a file's short names for modules of the repository, as in `use Rattle.a.proofs.B as b`
    short = {}
    for crate, part, path in files:
        if path.endswith(".antt"):
            short[path] = {m[2]: m[1] for m in re.finditer(r"^\s*(?:pub )?use ([^\s{};]+) as ([^\s;{},]+)", texts[path], re.M) if m[1] in everything}

    # 2. what each file does with them
    plans, problems, look, locals_ = {}, collections.defaultdict(set), [], collections.Counter()
    fields = {name for name, places in at.items() for it in places if it[1] == "field"}
    for crate, part, path in files:
        text = texts[path]
        if path.endswith(".edit"):
            continue
        rust = path.endswith(".rt")
        code = blanked(text, RUST if rust else QUIET)
        kit, ours = imports(code, own)
        module = module_of(crate, part, path) if not rust else ""
        mine = {}
        for old in set(TOKEN.findall(code)) & set(at) - kit:
            new = exact.get((module, old)) or exact.get((ours.get(old), old)) or rows.get(old, old)
            if new != old:
                mine[old] = new
        # (a path names modules, and a module may be spelled as a definition is)
        tokens = set(TOKEN.findall(USE.sub(lambda m: m[2] or "", code)))
        # (behind a dot stands a field, also of those that Rattle makes, as c.has_name)
        plain = {m[0] for m in TOKEN.finditer(code) if not code[: m.start()].endswith(".")} & tokens
        for name in kit & set(rows):
            look.append(f"{path}: {name} is the kit's here, and stays")
        if is_function_file(path):
            heads = {m[1] for m in re.finditer(r"^(" + WORD + r")", code, re.M)}
            signed = {name for name, *_ in declared(text)}
            for name in (heads - signed - set(ours)) & set(mine):
                look.append(f"{path}: {name} heads a clause that nothing declares: a name that Rattle makes, and stays")
                mine.pop(name)
        elif not rust:
            # local names
            for name in tokens:
                if NAME.match(name) and name not in rows and name not in kit and name not in at and not name.startswith("case-"):
                    bound = re.search(r"(?:λ [^.]*?|\blet |\bin |[({][^(){}:]*?)(?<![\w'-])" + re.escape(name) + r"(?![\w'-])", code) or re.search(r"^ *" + WORD + r" .*(?<![\w'-])" + re.escape(name) + r"(?![\w'-]).* =", code, re.M)
                    if bound and not re.search(r"\." + re.escape(name) + r"(?![\w'-])", code):
                        mine[name] = name.replace("-", "_")
                        locals_[name] += 1
                    else:
                        look.append(f"{path}: {name} is neither the repository's nor brought in from the kit, and stays")
        used = {old: mine[old] for old in tokens if old in mine}
        back = collections.defaultdict(set)
        for old, new in used.items():
            back[new].add(old)
            if new in (tokens if old in fields else plain) and new not in used:
                problems[old].add(f"{path}: {new} is a name there already" + (" (Rust's)" if rust and not re.search(r"(?<![\w'-])" + new + r"(?![\w'-])", "".join(code[a:b] for a, b in clauses(text))) else ""))
            if rust and re.search(r"(?:[(,|]\s*(?:mut )?|\blet (?:mut )?)" + re.escape(new) + r"\s*[:=,|)]", code):
                problems[old].add(f"{path}: {new} is a parameter or a local of the source there, which hides it")
        for new, olds in back.items():
            if len(olds) > 1:
                for old in olds:
                    problems[old].add(f"{path}: {' and '.join(sorted(olds))} would both be {new}")
        plans[path] = mine
    for module, names in everything.items():
        news = collections.defaultdict(set)
        for name in names:
            news[exact.get((module, name), name)].add(name)
        for new, olds in news.items():
            if len(olds) > 1:
                for old in olds:
                    problems[old].add(f"{module}: {' and '.join(sorted(olds))} would both be {new}")
        lower = collections.defaultdict(set)
        for name in names:
            lower[exact.get((module, name), name).lower()].add(exact.get((module, name), name))
        for same in lower.values():
            if len(same) > 1:
                for name in names:
                    if exact.get((module, name)) in same and exact[module, name] != name:
                        problems[name].add(f"{module}: {' and '.join(sorted(same))} would differ only in case")

    # those that only meet a Rust name, which is another kind of name, are no collision: they are told, and turn
    told = {}
    for old in list(problems):
        hard = {it for it in problems[old] if not it.endswith("(Rust's)")}
        if hard:
            told[old] = sorted(hard)
            rows.pop(old, None)
            for mine in plans.values():
                mine.pop(old, None)
    soft = {old: sorted(problems[old]) for old in problems if old not in told}

    # 3. write
    count = collections.Counter()

    def turned(code, mine, path):
        def one(m):
            word = m[0]
            if word not in mine:
                return word
            before = code[: m.start()]
            if before.endswith(".") and word not in fields:
                # behind a dot: a field of the repository's, or a name by its module
                head = re.search(r"([^\s(){};,@\"«»]+)\.$", before)
                if head and head[1] in short.get(path, ()):
                    count[word] += 1
                    return exact.get((short[path][head[1]], word)) or mine[word]
                if not head or not head[1].split(".")[-1][:1].isupper():
                    look.append(f"{path}: .{word} is no field of the repository's, and stays")
                    return word
            count[word] += 1
            return mine[word]
        return TOKEN.sub(one, code)

    def prose(text, mine, first=False):
        """A comment: code spans, names behind a module, names of three words or more."""
        def word(m):
            w = m[0]
            return mine.get(w, w) if w.count("-") > 1 or m.string[: m.start()].endswith(".") else w
        pieces = re.split(r"(`[^`\n]*`)", text)
        out = [turned(it, mine, "a comment") if k % 2 else re.sub(r"[\w'′]+(?:-[\w'′]+)+", word, it) for k, it in enumerate(pieces)]
        said = "".join(out)
        if first:
            said = re.sub(r"^# ([\w'′-]+)(?=[:, ])", lambda m: "# " + mine.get(m[1], m[1]), said)
        return said

    changed = {}
    for crate, part, path in files:
        text = texts[path]
        if path.endswith(".edit"):
            out, mine = [], dict(rows)
            for line in text.split("\n"):
                if line.startswith("file: "):
                    mine = plans.get(f"{top}/crates/{crate}/{line[6:].strip()}", rows)
                    out.append(line)
                elif line.startswith(("old: ", "new:")):
                    out.append(line[:4] + turned(line[4:], mine, path))
                else:
                    out.append(prose(line, rows, first=True))
            new = "\n".join(out)
        else:
            mine, quiet, spans = plans[path], RUST if path.endswith(".rt") else QUIET, None
            if path.endswith(".rt"):
                spans = list(clauses(text))
            out, last = [], 0

            def code_part(a, b):
                if spans is None:
                    return turned(text[a:b], mine, path)
                piece, at_ = [], a
                for x, y in spans:
                    x, y = max(x, at_), min(y, b)
                    if x < y:
                        piece += [text[at_:x], turned(text[x:y], mine, path)]
                        at_ = y
                for w in set(TOKEN.findall(text[at_:b])) & set(mine):
                    look.append(f"{path}: {w} stands outside of clauses, and stays")
                return "".join(piece) + text[at_:b]

            for m in quiet.finditer(text):
                out.append(code_part(last, m.start()))
                is_comment = m[0].startswith(("--", "{-", "//", "/*"))
                out.append(prose(m[0], mine) if is_comment else m[0])
                last = m.end()
            out.append(code_part(last, len(text)))
            new = "".join(out)
        if new != text:
            changed[path] = new
    if "docs" in options:
        import glob
        spared = {os.path.splitext(it)[0] for _, _, them in os.walk(top) for it in them}     # (files and tools keep their names)
        said = {old: new for old, new in rows.items() if old not in spared}
        for path in glob.glob(f"{top}/*.md") + glob.glob(f"{top}/docs/*.md"):
            text = open(path, encoding="utf-8").read()
            span = lambda m: m[0] if "/" in m[0] or " -" in m[0] or m[0].startswith("`rt ") else re.sub(r"[\w'′]+(?:-[\w'′]+)+(?!\.edit)", lambda w: said.get(w[0], w[0]), m[0])
            new = re.sub(r"`[^`\n]*`", span, text)
            if new != text:
                changed[path] = new
    if "write" in options:
        for path, new in changed.items():
            with open(path, "w", encoding="utf-8") as it:
                it.write(new)
    if rows_to:
        with open(rows_to, "w", encoding="utf-8") as it:
            it.writelines(f"{old} {new}\n" for old, new in sorted(rows.items()))
    kinds = collections.Counter(at[old][0][1] if at[old][0][4] == "specs" or at[old][0][1] != "def" or re.search("abbrev|unfoldable", at[old][0][2]) else "lemma" for old in rows)
    print(f"{len(rows)} names turn ({', '.join(f'{n} {k}' for k, n in kinds.items())}), in {len(changed)} files, {sum(count.values())} places; {sum(1 for it in rows.values() if '-' in it)} lemmas keep a dash; {len(locals_)} local names turn")
    for old, lines in sorted(told.items()):
        print(f"collision, left: {old}: " + "; ".join(lines[:3]) + (f"; and {len(lines) - 3} more" if len(lines) > 3 else ""))
    for old, lines in sorted(soft.items()):
        print(f"meets a Rust name, turns: {old}: {len(lines)} files, as {lines[0]}")
    for name, found, best in unlike:
        print(f"declared in several modules, spelled as each has it: {name}: " + ", ".join(f"{k} in {len(v)}" for k, v in found.items()))
    for line in sorted(set(look)):
        print(f"look: {line}")


main(sys.argv[1:])
