"""Reads the definitions of the repository, and tells which ones each of them names. For `tools/trust` and `tools/rooms`.

A definition is (path, name). What a name stands for:

- a definition of a file in `specs/`: what its type, its clauses, its fields and its constructors name; a constructor stands for its
  whole `data`;
- a Rust type that contracts see (imported from `specs.declared`, or named in a signature or in a type that is reached): the types
  of all its fields and variants, and where it has an `impl Model`, what its `Value` and its `view` name;
- a trait that bounds a signature: its ghost members, and the clauses of its functions, which each implementation has to meet.

Files in `specs/` are read by their tokens. Names that are bound where they stand (patterns, parameters, `λ`, `let`, fields of a
record in the fields after them) are no references, nor are fields after a dot or names of fields before a `=`. All fields of a Rust
type count, private ones too, though a contract sees those only through the type's view: so the list has rather too much than too
little. Names of the toolchain's libraries are followed no further. A name that is imported from the repository and isn't found
there is an error, and so is a definition in a form that isn't known here.
"""
import functools
import pathlib
import re

TOP = pathlib.Path(__file__).resolve().parent.parent

SPEC_HEAD = re.compile(r"(?:(?:abbrev|unfoldable) pub|pub record|pub data|pub|abbrev|unfoldable) (?!use |mod )(\S+)")
SPEC_LINE = re.compile(r"(?:pub )?(?:use|mod|infix[lr]?)\b")
USE = re.compile(r"^\s*(?:pub |ghost )?use ([\w.?]+?)(?:\.\{([^}]*)\}| as (\w+))?;?\s*$", re.M)
RUST_TYPE = re.compile(r"^(?:pub(?:\([a-z]+\))? )?(struct|enum|trait) (\w+)(?:[^\n{]*;$|[^\n]*\{\}$|.*?^\})", re.M | re.S)
RUST_ALIAS = re.compile(r"^(?:pub(?:\([a-z]+\))? )?(type) (\w+)[^;]*;$", re.M)
RUST_FUNCTION = re.compile(r'^pub (?:extern "C" )?(fn) (\w+)(.*?)^\{$', re.M | re.S)
RUST_USE = re.compile(r"^(?:pub(?:\([a-z]+\))? )?use (\w+)((?:::\w+)*?)::(?:\{([^;]*)\}|(\w+|\*));", re.M)
MODEL = re.compile(r"^impl(?:<[^{]*?>)? Model for (\w+).*?^\}", re.M | re.S)
TOKEN = re.compile(r"[(){}\[\];,λ]|[^\s(){}\[\];,λ]+")


class Unreadable(Exception):
    """Something that this script can't follow."""


# Reading files


@functools.cache
def read(path):
    return (TOP / path).read_text(encoding="utf-8")


def is_file(path):
    return (TOP / path).is_file()


def is_crate(name):
    return (TOP / "crates" / name).is_dir()


def tokens_of(text):
    """The tokens of an antt term, without comments and texts."""
    text = re.sub(r'"(?:[^"\\\n]|\\.)*"|(?<!\S)--.*', " ", text)
    return TOKEN.findall(text.replace("«", "").replace("»", ""))


@functools.cache
def spec_definitions(path):
    """Each definition of a file in specs/ with its statements: a signature and clauses, or a record or data with its lines."""
    definitions, name = {}, None
    for line in read(path).split("\n"):
        head = SPEC_HEAD.match(line)
        if line.startswith((" ", ")", "}", "]")):
            if name:
                definitions[name][-1] += "\n" + line
        elif head:
            name = head.group(1)
            definitions[name] = [line[head.end() :] if not line.startswith(("pub record", "pub data")) else line]
        elif SPEC_LINE.match(line):
            name = None
        elif line and not line.startswith("--"):
            if name is None:
                raise Unreadable(f"{path}: {line}")
            definitions[name].append(line)
    return definitions


def is_data(path, name):
    return spec_definitions(path)[name][0].startswith("pub data")


@functools.cache
def constructors(path):
    """Each constructor of a file in specs/, and its data."""
    found = {}
    for name in spec_definitions(path):
        if is_data(path, name):
            for constructor in re.findall(r"^  (\S+) :", spec_definitions(path)[name][0], re.M):
                found[constructor] = name
    return found


@functools.cache
def rust_items(path):
    """The types, traits and public functions of a Rust file, these without bodies: kind and text, without comments."""
    text = without_comments(read(path))
    return {m.group(2): (m.group(1), m.group(0)) for form in (RUST_FUNCTION, RUST_ALIAS, RUST_TYPE) for m in form.finditer(text)}


@functools.cache
def models(path):
    """The `impl Model` of each type of a Rust file that has one."""
    return {m.group(1): m.group(0) for m in MODEL.finditer(without_comments(read(path)))}


def without_comments(text):
    return re.sub(r"^\s*//.*\n", "", text, flags=re.M)


# What a name stands for: a definition is (path, name)


def rust_type(crate, modules, name):
    """The type or trait of this name in a crate: in the module that was named, or else in the one file that has it."""
    exact = f"crates/{crate}/src/{'/'.join(modules) or 'lib'}.rt"
    if is_file(exact) and name in rust_items(exact):
        return exact, name
    paths = sorted(str(p.relative_to(TOP)) for p in (TOP / "crates" / crate / "src").rglob("*.rt"))
    having = [p for p in paths if rust_items(p).get(name, ("fn",))[0] != "fn"]
    if len(having) != 1:
        raise Unreadable(f"crate {crate} has {len(having)} types {name}")
    return having[0], name


def member(module, name):
    """What a name of an imported module stands for, and whether it is a constructor; nothing for the toolchain's libraries, and for what it makes of
    functions and types."""
    parts = module.split(".")
    if parts[0] != "Rattle" or not is_crate(parts[1]):
        return None
    crate, parts = parts[1], parts[3:]
    if parts[0] == "contracts":
        return None
    if parts[0] == "declared":
        variants = parts[-1] == "TheVariants"
        parts = parts[1:-1] if parts[-1] in ("TheVariants", "TheInside") else parts[1:]
        return rust_type(crate, parts[:-1], parts[-1]), variants
    path = f"crates/{crate}/specs/{'/'.join(parts)}.antt"
    if not is_file(path) and parts[0] in handed_on(crate):
        return member(handed_on(crate)[parts[0]], name)
    found = spec_names(path).get(name)
    if found is None:
        raise Unreadable(f"{path} has no {name}")
    return found


@functools.cache
def handed_on(crate):
    """The modules of crates below that a crate's `specs/` hands on, by the names that they have there."""
    root = f"crates/{crate}/specs/Lib.antt"
    return {module.split(".")[-1]: module for module in re.findall(r"^pub use (Rattle\.[\w.]+)$", read(root), re.M)} if is_file(root) else {}


@functools.cache
def spec_names(path):
    """What the names of a file in specs/ stand for to those who import them."""
    names, _ = imports("\n".join(line for line in read(path).split("\n") if line.startswith("pub use")))
    names.update({name: ((path, name), False) for name in spec_definitions(path)})
    names.update({name: ((path, data), True) for name, data in constructors(path).items()})
    return names


def imports(text):
    """The names that `use` lines bring, with what they stand for, and the modules that they name."""
    names, modules = {}, {}
    for module, items, alias in USE.findall(text):
        if "::" in module or not module.startswith("Rattle."):
            continue
        if not items:
            modules[alias or module.split(".")[-1]] = module
        for item in filter(None, (i.strip() for i in items.split(","))):
            name, _, other = item.partition(" as ")
            names[other or name] = member(module, name)
    return names, modules


class Names:
    """What the names of an antt text stand for in its file."""

    def __init__(self, text, own):
        self.names, self.modules = imports(text)
        self.names.update(own)
        for name in [n for n in self.names if "◌" in n]:
            for part in filter(None, name.split("◌")):
                self.names[part] = self.names[name]
        if ">>=" in self.names:
            self.names["do"] = self.names[">>="]

    def find(self, token):
        """The definition of a token, and whether it is a constructor; nothing for the toolchain's names and unknown ones."""
        head, _, rest = token.partition(".")
        if rest and head in self.modules:
            return member(self.modules[head], rest.split(".")[0])
        return self.names.get(head)


# What a term names


def free(tokens, bound):
    """The tokens of a term that aren't bound in it."""
    bound, open_brackets, found = set(bound), [], []
    for i, token in enumerate(tokens):
        following = tokens[i + 1] if i + 1 < len(tokens) else ""
        if token in "([{":
            open_brackets.append((set(bound), binders(tokens[i + 1 :])))
        elif token in ")]}":
            outside, names = open_brackets.pop()
            bound = outside | names
        elif token in ",;" and open_brackets:
            bound = set(open_brackets[-1][0])
        elif token == "λ":
            bound |= lambda_names(tokens[i + 1 :])
        elif token == "let":
            bound.add(following)
        elif following == "←":
            bound.add(token)
        elif token.startswith(".") or is_field_name(tokens, i, open_brackets):
            continue
        elif token.rstrip(".").partition(".")[0] not in bound:
            found.append(token)
    return found


def binders(tokens):
    """The names that a bracket binds which begins so: those before its colon."""
    names = set()
    for token in tokens:
        if token == ":":
            return names
        if TOKEN.fullmatch(token) is None or token in "(){}[];,λ" or token in "=→×":
            return set()
        names.add(token)
    return set()


def lambda_names(tokens):
    """The names between a λ and its dot; those in brackets are found as binders."""
    names = set()
    for token in tokens:
        if token in "(){}[];,λ":
            break
        names.add(token.rstrip("."))
        if token.endswith("."):
            break
    return names


def is_field_name(tokens, i, open_brackets):
    """Whether the token is the name of a field or an argument, before its `=`."""
    return bool(open_brackets) and i + 1 < len(tokens) and tokens[i + 1] == "=" and tokens[i - 1] in "{;"


def split_clause(tokens):
    """The patterns and the body of a clause, before and after its first `=` outside brackets."""
    depth = 0
    for i, token in enumerate(tokens):
        depth += (token in "([{") - (token in ")]}")
        if token == "=" and depth == 0:
            return tokens[:i], tokens[i + 1 :]
    raise Unreadable(f"no clause: {' '.join(tokens)}")


def clause_names(tokens, names):
    """What a clause names: the constructors of its patterns, and what is free in its body."""
    patterns, body = split_clause(tokens)
    bound, found = set(), []
    for token in patterns:
        known = names.find(token)
        if known and known[1]:
            found.append(token)
        else:
            bound.add(token)
    return found + free(body, bound)


def fields_names(statement):
    """What a record or a data names: its parameters' types, and the types of its fields or constructors."""
    head, *lines = re.split(r"\n  (?=\S)", statement)
    tokens = tokens_of(head)[3:]
    found, bound = free(tokens, set()), parameter_names(tokens)
    for line in lines:
        tokens = tokens_of(line)
        if ":" not in tokens:
            continue
        colon = tokens.index(":")
        found += free(tokens[colon + 1 :], bound)
        bound |= set(tokens[:colon])
    return found


def parameter_names(tokens):
    names = set()
    for i, token in enumerate(tokens):
        if token in "({":
            names |= binders(tokens[i + 1 :])
    return names


def spec_references(path, name):
    """The definitions that a definition in specs/ names."""
    names = Names(read(path), spec_names(path))
    first, *clauses = spec_definitions(path)[name]
    tokens = fields_names(first) if first.startswith("pub ") else free(tokens_of(first), set())
    for clause in clauses:
        tokens += clause_names(tokens_of(clause), names)
    return [found[0] for found in map(names.find, tokens) if found]


# What Rust types, traits and the top call name


def rust_names(path):
    """What the type names of a Rust file stand for: its own items, and those that it takes from crates of the repository."""
    crate, modules = path.split("/")[1], path[: -len(".rt")].split("/")[3:]
    names = {}
    for first, middle, many, single in RUST_USE.findall(read(path)):
        source = rust_module(crate, [first] + middle.split("::")[1:])
        if source and set(many or single) & set("{*"):
            raise Unreadable(f"{path}: use {first}{middle}::{many or single}")
        for item in (many or single).split(",") if source else []:
            name, _, other = item.strip().partition(" as ")
            *deeper, name = name.split("::")
            if name[:1].isupper() and not name.isupper():
                names[other or name] = source[0], source[1] + deeper, name
    names.update({name: (crate, modules, name) for name, (kind, _) in rust_items(path).items() if kind != "fn"})
    return names


def rust_module(crate, path):
    """The crate of the repository and its modules that a path leads to; nothing for other crates."""
    first, *inside = path
    if first in ("crate", "super", "self"):
        return crate, inside
    if is_crate(first):
        return first, inside
    return (crate, path) if is_file(f"crates/{crate}/src/{first}.rt") else None


def named_types(path, text):
    """The types and traits of the repository that a piece of Rust names, by their names alone or with a path before them."""
    known, found = rust_names(path), []
    for before, name in re.findall(r"((?:\b\w+::)*)\b([A-Z]\w*)", text):
        if before:
            source = rust_module(path.split("/")[1], before.split("::")[:-1])
            found += [rust_type(*source, name)] if source else []
        elif name in known:
            found.append(rust_type(*known[name]))
    return found


def terms(text):
    """The antt terms of a Rust item: what stands in the braces of its clauses and ghost members."""
    found = []
    for head in re.finditer(r"(?:\b(?:requires|ensures)(?: \w+)*|\bghost \w+ ?[:=]) \{", text):
        depth, end = 1, head.end()
        while depth:
            depth += {"{": 1, "}": -1}.get(text[end], 0)
            end += 1
        found.append((head.group(0), text[head.end() : end - 1]))
    return found


def term_references(path, text, parts):
    names = Names("\n".join(re.findall(r"^\s*ghost use .*;$", head_of(path) + text, re.M)), {})
    found = [names.find(token) for part in parts for token in free(tokens_of(part), set())]
    return [f[0] for f in found if f]


def head_of(path):
    """A Rust file's imports for all its clauses: those at the left margin."""
    return "\n".join(re.findall(r"^ghost use .*;$", read(path), re.M)) + "\n"


def without_terms(text):
    """A Rust item without its clauses, so that its Rust types are left."""
    for head, term in terms(text):
        text = text.replace(head + term + "}", " ")
    return text


def rust_references(path, name):
    """What a Rust item names: a type its fields' types and its model, a trait and the top call their types and clauses."""
    if name not in rust_items(path):
        raise Unreadable(f"{path} has no {name}")
    kind, text = rust_items(path)[name]
    if kind == "enum":
        text = re.sub(r"^    [A-Z]\w*", "", text, flags=re.M)
    shape = text if kind in ("fn", "trait", "type") else re.sub(r"^.*?(?=[{(;])", "", text, count=1, flags=re.S)
    found = named_types(path, without_terms(shape)) + term_references(path, text, [term for _, term in terms(text)])
    model = models(path).get(name)
    if model:
        seen = [term for head, term in terms(model) if "Value" in head or "view" in head]
        found += term_references(path, model, seen)
    return found


def references(definition):
    """The definitions that a definition names: of specs/, or a Rust item."""
    path, name = definition
    return spec_references(path, name) if path.endswith(".antt") else rust_references(path, name)
