"""Reads the definitions of crates/*/specs and the contracts of crates/*/src, as texts: what names what.

A definition is known by its place: crate, module, name. A type of the code is known by crate, "declared", name; it names
what says how a contract sees it. Where a name could stand for two things, both are taken.
"""

import glob
import os
import re

TOP = os.path.dirname(os.path.dirname(os.path.realpath(__file__)))
# Crates that test or measure promise nothing, and the functions of the program itself have no contract.
NO_LIBRARY = re.compile(r"altered|bench|tables|\w+_rows")

HEAD = re.compile(r"(?:(?:abbrev|unfoldable|pub)(?: pub| record| data)* |(?=mutual)|(?=\S+ : ))(\S+)")
MEMBER = re.compile(r"(?:  ){1,2}(?:pub )?(?:record |data )?([^-( :→][^:(]*?) :")
WORD = re.compile(r"(?<![.\w'])[A-Za-z_][\w']*(?:\.[A-Za-z_][\w']*)?|>>=")
IMPORT = re.compile(r"\s*(?:ghost )?use Rattle\.(\w+)\.specs\.(declared\.)?([\w.]+?)(?:\.\{(.*)\}| as (\w+))?;?$")
USE = re.compile(r"\b(pub )?use (\w+)(?:::\w+)*::(?:\{([^}]*)\}|(\w+));")
BLOCK = re.compile(r"^(?:pub )?(?:impl\b(?:<.*?>(?= ))? ?(?:(\w+)(?:<[^{]*>)? for )?|trait )(\w+)[^{;]*\{", re.MULTILINE)
FUNCTION = re.compile(r"^ *(pub |pub\([^)]*\) )?(?:const |unsafe )*fn (\w+)", re.MULTILINE)
GHOST = re.compile(r"^ *ghost \w+\s*[=:]\s*\{", re.MULTILINE)
CLAUSE = re.compile(r"\b(?:ensures|requires)\b[^{;]*\{|[{;]")
UNREAD = re.compile(r'//.*|"(?:[^"\\]|\\.)*"|\'(?:[^\'\\]|\\[^\']+|\\\')\'')


class Unit:
    """A definition: where it is, its names, how many lines it has, and the places of what it names."""

    def __init__(self, home, line=0, names=()):
        self.home, self.line, self.names, self.lines, self.words = home, line, list(names), 0, set()


class Contract:
    """What a function says, or an `impl` of a type without its functions: where it is, and the places of what it names."""

    def __init__(self, crate, path, line, owner, trait, function, words):
        self.crate, self.path, self.line, self.words = crate, path, line, words
        self.owner, self.trait, self.function = owner, trait, function


def definitions():
    """Reads the definitions: units by the place of each name; each module with the lines of its first comment; and the
    places of imported names that no definition has, which says that something isn't read as it is meant."""
    units, modules, imports = {}, {}, {}
    for path in sorted(glob.glob(f"{TOP}/crates/*/specs/*.antt")):
        home = path.split("/")[-3], os.path.basename(path)[:-5]
        if home[1] == "Lib":
            continue
        lines = text_of(path).split("\n")
        modules[home] = next(at for at, line in enumerate(lines) if not line.startswith("--"))
        imports[home] = imported(lines)
        for unit in units_of(lines, home, modules[home]):
            for name in unit.names:
                units.setdefault((*home, name.strip("◌")), set()).add(unit)
    for unit in set().union(*units.values()):
        unit.words = {(*unit.home, it) for it in unit.words} | places(unit.words, imports[unit.home])
    named = {place for names in imports.values() for found in names.values() for place in found if len(place) == 3}
    return units, modules, {it for it in named if it[:2] in modules and it not in units}


def private_modules():
    """Returns the modules that their crates name as private: those after a line `-- private: ..` of `specs/Lib.antt`."""
    found = set()
    for path in glob.glob(f"{TOP}/crates/*/specs/Lib.antt"):
        _, _, named = f"\n{text_of(path)}".partition("\n-- private: ")
        found |= {(path.split("/")[-3], it) for it in re.findall(r"^pub mod (\w+)$", named, re.MULTILINE)}
    return found


def units_of(lines, home, head):
    """Cuts a module into its definitions. Those of a `module _` stand two blanks further in than it."""
    found, unit, waiting, around = [], None, 0, []
    for number, line in enumerate(lines[head:], head + 1):
        if not line.strip() or line.startswith("use "):
            continue
        around = around[:(len(line) - len(line.lstrip())) // 2]
        text = line[2 * len(around):]
        if text.startswith(("--", "infix", "module _")):
            around += [words_of(text)] if text.startswith("module _") else []
            waiting += 1
            continue
        if begun := HEAD.match(text):
            unit = Unit(home, number, [] if begun[1] == "mutual" else [begun[1]])
            unit.words = set().union(*around)
            found.append(unit)
        elif (member := MEMBER.match(text)) and "record" not in lines[unit.line - 1]:
            unit.names += member[1].split()
        unit.lines, waiting = unit.lines + 1 + waiting, 0
        unit.words |= words_of(text)
    return found


def words_of(text):
    """Returns the names in a text, each by itself and with what stands behind a dot."""
    found = WORD.findall(re.sub(r'"[^"]*"|--.*', "", text))
    return {it for word in found for it in (word, word.partition(".")[0])}


def imported(lines):
    """Returns the places of each imported name, and of `NAME.` for a module or type that is named so."""
    names = {}
    for line in lines:
        if found := IMPORT.match(line):
            crate, is_type, path, listed, alias = found.groups()
            parts = path.split(".")
            home = (crate, "declared", parts[min(1, len(parts) - 1)]) if is_type else (crate, parts[0])
            if not listed:
                names.setdefault(f"{alias or parts[-1]}.", set()).add(home)
            for item in listed.split(", ") if listed else []:
                name, _, other = item.partition(" as ")
                names.setdefault((other or name).strip("◌"), set()).add(home if is_type else (*home, name.strip("◌")))
    return names


def places(words, names):
    """Returns what words stand for, by the imports."""
    found = set().union(*(names.get(it, set()) for it in words))
    for word in words:
        head, dot, rest = word.partition(".")
        found |= {home if len(home) == 3 else (*home, rest) for home in names.get(f"{head}.", set()) if dot}
    return found


def contracts():
    """Gives the contracts of the libraries and of the program that may be met from outside of a file."""
    for crate in sorted(os.listdir(f"{TOP}/crates")):
        for path in sorted(glob.glob(f"{TOP}/crates/{crate}/src/**/*.rt", recursive=True)):
            if NO_LIBRARY.fullmatch(crate):
                continue
            code = code_of(path)
            names, types = imported(code.split("\n")), rust_names(code)
            for line, owner, trait, function, text in clauses(code):
                words = places(words_of(text), names)
                words |= {(types.get(it, crate), "declared", it) for it in words_of(text) if it[0].isupper()}
                yield Contract(crate, os.path.relpath(path, TOP), line, owner, trait, function, words)


def text_of(path):
    with open(path, encoding="utf-8") as file:
        return file.read()


def code_of(path):
    """Returns a file of code without its comments and the texts in it."""
    code = UNREAD.sub(lambda it: "\n" * it[0].count("\n"), text_of(path))
    # the semicolon of an array's type ends no contract
    return re.sub(r";(?= *\w+\])", ",", code)


def rust_names(code):
    """Returns the crate of each name that code imports from another."""
    found = [(crate, (many or one).split(",")) for _, crate, many, one in USE.findall(code) if crate != "crate"]
    return {name.split(" as ")[0].strip(): crate for crate, names in found for name in names}


def exports(crate):
    """Returns the names that a library gives to others."""
    found = [many or one for is_public, _, many, one in USE.findall(code_of(f"{TOP}/crates/{crate}/src/lib.rt")) if is_public]
    return {name.strip() for names in found for name in names.split(",")}


def clauses(code):
    """Gives line, type, trait, function and text of each contract. Of a block of a type the function is none."""
    blocks = []
    for block in BLOCK.finditer(code):
        end, trait = closing(code, block.end()), "its own" if "trait " in block[0] else block[1]
        blocks.append((block.start(), end, block[2], trait))
        seen = [code[it.end():closing(code, it.end())] for it in GHOST.finditer(code, block.end(), end)]
        yield code.count("\n", 0, block.start()) + 1, block[2], trait, None, " ".join(seen)
    for head in FUNCTION.finditer(code):
        owner, trait = next(((it[2], it[3]) for it in blocks if it[0] < head.start() < it[1]), (None, None))
        found = CLAUSE.search(code, head.end())
        while found[0] not in ("{", ";"):
            found = CLAUSE.search(code, closing(code, found.end()))
        if head[1] == "pub " or trait:
            yield code.count("\n", 0, head.start()) + 1, owner, trait, head[2], code[head.end():found.start()]


def closing(code, at):
    """Returns the place after the brace that closes the one before a place."""
    depth = 1
    while depth:
        depth += {"{": 1, "}": -1}.get(code[at], 0)
        at += 1
    return at
