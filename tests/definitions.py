#!/usr/bin/env python3
"""Prints docs/DEFINITIONS.md: the definitions that are met in several contracts, in the words of their own comments.

  tests/definitions.py > docs/DEFINITIONS.md
"""
import collections, os, re

TOP = os.path.dirname(os.path.dirname(os.path.abspath(__file__)))
HEAD = """# Definitions

What the words of contracts mean: by crate, from the lowest up, and by file below `crates/CRATE/specs/`. `tests/definitions.py`
prints this page from the comments of these files; to change a row, change the comment.

Listed is what a reader meets in several places: the definitions that two clauses of public functions name, those that four other
files of definitions use, and, of names with a capital, those that one clause and two files name. A function is public if its
crate's `lib.rt` hands it out: by its name, by its module or with its type. Of what a single clause names, the function's own
comment says the same. All others are in the same files, beside these. A row has one definition, several that share a comment, or
several short ones with their words in order, separated by semicolons. "This" is what the first column says. Crates of tests are
left out.
"""
# Within a module with parameters a definition is indented, as the fields of a record are.
DEFINED = re.compile(r"(?:\s+(?=abbrev |unfoldable |pub record |pub data ))?(?:unfoldable |abbrev |record |data )*pub (?:record |data )?(?!mod\b|use\b)(\w+)")
USES, LONG, SHORT = 4, 240, 120

Definition = collections.namedtuple("Definition", "name section words")


def crates():
    with open(f"{TOP}/crates.txt") as file:
        return [line.partition(":")[0] for line in file if line.strip() and not line.startswith("#")]


def files(crate, part, ending):
    """The lines of each file of a crate's `src` or `specs`, by its path below that."""
    root = f"{TOP}/crates/{crate}/{part}"
    for folder, _, names in sorted(os.walk(root)):
        for name in sorted(names):
            if name.endswith(ending):
                with open(f"{folder}/{name}", encoding="utf-8") as file:
                    yield os.path.relpath(f"{folder}/{name}", root).removesuffix(ending), file.read().split("\n")


def file_of(module):
    """The file of a module below `specs`, whose folders are the modules above it."""
    return module.replace(".", "/")


def handed_out(library):
    """The modules that a `lib.rt` hands out, and the functions and types."""
    text = "\n".join(library)
    lists = re.findall(r"^pub use [\w:]+?::(?:\{([^}]*)\}|(\w+));", text, re.M)
    names = {name for several, one in lists for name in re.findall(r"\w+", several or one)}
    return set(re.findall(r"^pub mod (\w+);", text, re.M)), names


def clauses(lines):
    """The lines of contracts of public functions and of models, each with what it is handed out by: a function, or its type."""
    owner, by, is_trait, is_public, is_clause = None, None, False, False, False
    for line in lines:
        block = re.match(r"(?:unsafe )?(impl|pub trait)\b(?:<.*?>+)?(?: [\w:<>, ']+( for))? (\w+)", line)
        function = re.match(r"(\s*)(pub )?(?:final )?(?:unsafe )?fn (\w+)", line)
        if block:
            owner, is_trait, is_clause = block[3], block[1] == "pub trait" or bool(block[2]), False
        elif function:
            is_method, is_clause = bool(function[1]), False
            by, is_public = owner if is_method else function[3], bool(function[2]) or is_method and is_trait
        elif re.match(r"\s+(ensures|requires)\b", line):
            is_clause = is_public
        elif line.strip() in ("", "{") or line.startswith("}"):
            is_clause = False
        if is_clause:
            yield by, line
        elif re.match(r"\s+ghost (?!use\b)", line):
            yield owner, line


def named(crate):
    """The definitions that clauses of a crate's public contracts name, each as its crate, its file and its name."""
    sources = dict(files(crate, "src", ".rt"))
    modules, names = handed_out(sources.get("lib", []))
    for path, lines in sources.items():
        text = "\n".join(lines)
        known, short = {}, {}
        for place, module, listed in re.findall(r"ghost use Rattle\.(\w+)\.specs\.([\w.]+)\.\{([^}]*)\}", text):
            known |= {name: (place, file_of(module), name) for name in re.findall(r"\w+", listed)}
        for place, module, alias in re.findall(r"ghost use Rattle\.(\w+)\.specs\.([\w.]+)(?: as (\w+))?;", text):
            short[alias or module.split(".")[-1]] = place, file_of(module)
        for by, line in clauses(lines):
            if path.split("/")[0] in modules or by in names:
                yield from {known[name] for name in re.findall(r"\w+", line) if name in known}
                yield from {(*short[alias], name) for alias, name in re.findall(r"\b(\w+)\.(\w+)", line) if alias in short}


def comment(lines, end):
    """The comment that ends before a line."""
    begin = end
    while begin and lines[begin - 1].lstrip().startswith("-- ") and not lines[begin - 1].startswith("-- ----"):
        begin -= 1
    return " ".join(line.lstrip()[3:] for line in lines[begin:end])


def about(lines):
    """The first sentence of the comment at a file's beginning."""
    return sentence(comment(lines, next(at for at, line in enumerate(lines) if not line.startswith("-- "))))


def sentence(text):
    return re.split(r"\. (?=[A-Z])", text)[0]


def definitions(lines, names):
    """Those of these names, in their order. One without a comment shares that of the listed one right before it; if that isn't
    listed, it is what its section or the file is about."""
    section, words = "", about(lines)
    for number, line in enumerate(lines):
        if line.startswith("-- ----"):
            section = words = line[7:].strip()
        elif found := DEFINED.match(line):
            words = (comment(lines, number) or words) if found[1] in names else section or about(lines)
            if found[1] in names:
                yield Definition(found[1], section, words)


def cell(text):
    """A text as a cell of a table; of a long one the first sentence."""
    text = sentence(text) if len(text) > LONG else text
    return text.replace("|", "\\|").replace("<", "\\<").replace("*", "\\*").removesuffix(".")


def rows(listed):
    """The definitions of a file row by row: those with the same words, and short ones of a section together."""
    found = []
    for one in listed:
        last = found[-1] if found else None
        if last and last[-1].words == one.words and last[-1].section == one.section:
            last.append(one)
        elif last and last[-1].section == one.section and is_short([*last, one]):
            last.append(one)
        else:
            found.append([one])
    return found


def is_short(several):
    """Whether their words are few, and none has a semicolon or is what the file is about."""
    words = list(dict.fromkeys(one.words for one in several))
    odd = any(";" in text or re.match("[A-Z][a-z]", text) for text in words)
    return len(words) == len(several) and sum(map(len, words)) <= SHORT and not odd


def table(file, lines, listed):
    """The rows of a file. The first one says what the file is about, and the first one of a section what that is."""
    section = None
    for several in rows(listed):
        titles = [] if section is not None else [f"**{file}:** {cell(about(lines))}"]
        if several[0].section not in ("", section):
            titles.append(cell(several[0].section))
        section = several[0].section
        words = [cell(one.words) for one in several]
        names, said = ", ".join(f"`{one.name}`" for one in several), "; ".join(dict.fromkeys(words))
        said = "this" if titles and titles[-1].endswith(said) else said
        yield f"| {'; '.join(titles)} | {names} | {said} |".replace("|  |", "| |")


def used(crate):
    """The definitions that a crate's other definitions use, once for each file."""
    for _, lines in files(crate, "specs", ".antt"):
        for place, module, listed in re.findall(r"^use Rattle\.(\w+)\.specs\.([\w.]+)\.\{([^}]*)\}", "\n".join(lines), re.M):
            yield from {(place, file_of(module), name) for name in re.findall(r"\w+", listed)}


def wanted():
    """What the page lists, by crate and file."""
    in_clauses = collections.Counter(found for crate in crates() for found in named(crate))
    in_files = collections.Counter(found for crate in crates() for found in used(crate))
    places = collections.defaultdict(set)
    for found in in_clauses | in_files:
        crate, file, name = found
        clauses_of, files_of = in_clauses[found], in_files[found]
        if clauses_of >= 2 or files_of >= USES or name[0].isupper() and clauses_of and files_of >= 2:
            places[crate, file].add(name)
    return places


def page():
    text, places = HEAD, wanted()
    for crate in crates():
        if crate.startswith("test_"):
            continue
        body = [row for file, lines in files(crate, "specs", ".antt") for row in table(file, lines, definitions(lines, places[crate, file]))]
        if body:
            text += "\n".join([f"\n## {crate}\n", "| File | Definition | In words |", "|---|---|---|", *body, ""])
    return text


if __name__ == "__main__":
    print(page(), end="")
