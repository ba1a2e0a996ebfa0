#!/usr/bin/env python3
"""Tries the documents: every command of README as it stands, the limits of their lines, their links, those of the package and its
version, the form of decisions, the completion for bash, that scripts can be run, that names of crates, types and definitions
are of one thing each, that DEFINITIONS is what tests/definitions.py prints, that the wrong bodies of planted.rows can be planted,
and that the capabilities that are listed are those that there are.

  tests/documents.py [--sieved SIEVED] [TRIAL ..]
"""
import contextlib, importlib.machinery, importlib.util, io, os, re, subprocess, tempfile
import definitions as definitions_page
import trials

TOP = os.path.dirname(os.path.dirname(os.path.abspath(__file__)))
SIEVED = f"{TOP}/crates/sieved/out/sieved"
# A row of a table and indented code are left out; in these files a cell has no more octets than a line may have, or few words.
NARROW_CELLS = ["README.md", "docs/OPERATING.md", "docs/VARIANTS.md", "docs/REFERENCE.md"]
SHORT_CELLS, WORDS = ["docs/CONTRIBUTING.md"], 25
LINE, README_LINES = 130, 130
# So many edits the gate may have: each costs some 38 seconds of a processor.
EDITS = 75
FAMILIES = {"cli", "daemon", "dovecot", "lmtp", "mail", "maildir", "managesieve", "net", "sasl", "sieve", "smtp", "store", "tar", "test"}
# These are the same thing in each crate that has them: a limit, a list or a question which crates side by side both need.
SAME = {"after_span", "day_names", "is_visible", "month_names"}
# A type, a definition and a function that other crates can name.
DECLARED = {"src": r"^\s*pub (?:struct|enum|trait|type) (\w+)", "specs": r"^(?:unfoldable |abbrev |record |data )*pub (?:record |data )?(?!mod\b|use\b)(\w+)"}


def pages():
    return [name for name in sorted(os.listdir(TOP)) if name.endswith(".md")] + [f"docs/{name}" for name in sorted(os.listdir(f"{TOP}/docs")) if name.endswith(".md")]


def lines_of(page):
    with open(f"{TOP}/{page}", encoding="utf-8") as file:
        return file.read().split("\n")


def is_code(line):
    return line.startswith("    ")


def commands():
    """The commands of README's look, each with what it is to print: a `$` begins one, which goes on while the shell wants more."""
    found, text = [], []
    for line in lines_of("README.md"):
        if not is_code(line) and line:
            text = []
        elif line.startswith("    $ ") and not wants_more(text):
            text = [line[6:]]
            found.append((text, []))
        elif wants_more(text):
            text.append(line[4:])
        elif text and is_code(line):
            found[-1][1].append(line[4:])
    return [("\n".join(text), "\n".join(said).rstrip("\n")) for text, said in found]


def wants_more(text):
    if not text:
        return False
    checked = subprocess.run(["bash", "-n"], input="\n".join(text) + "\n", capture_output=True, text=True)
    return bool(checked.stderr)


def readme():
    trials.need("bash", "openssl", "base64")
    with tempfile.TemporaryDirectory() as room:
        os.mkdir(f"{room}/bin")
        os.symlink(SIEVED, f"{room}/bin/sieved")
        how = {"cwd": room, "env": {**os.environ, "PATH": f"{room}/bin:{os.environ['PATH']}"}, "stdin": subprocess.DEVNULL}
        run = commands()
        for text, wanted in run:
            done = subprocess.run(["bash", "-c", text], stdout=subprocess.PIPE, stderr=subprocess.STDOUT, text=True, timeout=60, **how)
            if done.stdout.rstrip("\n") != wanted:
                raise Exception(f"{text}\nwanted: {wanted}\nfound: {done.stdout}")
    if len(run) < 8:
        raise Exception(f"{len(run)} commands are no look at it")
    return f"{len(run)} commands"


def lines():
    count, wrong = 0, []
    for page in pages():
        for number, line in enumerate(lines_of(page), 1):
            count += 1
            if is_code(line):
                continue
            row = line.lstrip().startswith("|")
            cells = re.split(r"(?<!\\)\|", line) if row else []
            parts = [line] if not row else cells if page in NARROW_CELLS else []
            wrong += [f"{page}:{number}" for part in parts if len(part.encode()) > LINE]
            wrong += [f"{page}:{number}" for part in cells if page in SHORT_CELLS and len(part.split()) > WORDS]
    if len(lines_of("README.md")) - 1 > README_LINES:
        wrong.append("README.md is too long")
    if wrong:
        raise Exception(f"too long: {' '.join(wrong)}")
    return f"{count} lines"


def decisions():
    """Each entry of DECISIONS.md has what was open, what was chosen and why."""
    entries = re.split(r"\n(?=##+ )", "\n".join(lines_of("docs/DECISIONS.md")))[1:]
    entries = [entry for at, entry in enumerate(entries) if entry.startswith("### ") or not "".join(entries[at + 1:at + 2]).startswith("### ")]
    wrong = [entry.split("\n")[0] for entry in entries if [entry.count(f"*{part}:*") > 0 for part in ("Open", "Chosen", "Why")] != [True] * 3]
    if wrong:
        raise Exception(f"no entry: {'; '.join(wrong)}")
    return f"{len(entries)} entries"


def anchor(heading):
    """The name that the forge gives a heading."""
    text = re.sub(r"\[([^\]]*)\]\([^)]*\)", r"\1", heading.strip().lower())
    return re.sub(r"[^\w\- ]", "", text).replace(" ", "-")


def links_below(root, pages):
    """How many links these pages below a folder have to others."""
    count, wrong = 0, []
    read = lambda path: open(path, encoding="utf-8").read().split("\n")
    for page in pages:
        text = "\n".join(line for line in read(f"{root}/{page}") if not is_code(line))
        for target in re.findall(r"\]\(([^)\s]+)\)", text):
            if re.match(r"[a-z]+://", target):
                continue
            count += 1
            path, _, name = target.partition("#")
            full = os.path.normpath(f"{root}/{os.path.dirname(page)}/{path}") if path else f"{root}/{page}"
            if not os.path.exists(full):
                wrong.append(f"{page}: {target}")
            elif name and name not in [anchor(line.lstrip("#")) for line in read(full) if line.startswith("#")]:
                wrong.append(f"{page}: {target}")
    if wrong:
        raise Exception(f"leads nowhere: {', '.join(wrong)}")
    return count


def links():
    return f"{links_below(TOP, pages() + [f'crates/{crate}/README.md' for crate in crates()])} links"


def make():
    """release/make, which builds the program that is tried."""
    loader = importlib.machinery.SourceFileLoader("make", f"{TOP}/release/make")
    loaded = importlib.util.module_from_spec(importlib.util.spec_from_loader("make", loader))
    loader.exec_module(loaded)
    loaded.PROGRAM = SIEVED
    return loaded


def package():
    """What is made of a release has one version, and is newer than the release before; no link of its pages leads nowhere."""
    trials.need("dpkg-deb", "tar", "gzip")
    with tempfile.TemporaryDirectory() as room:
        with contextlib.redirect_stdout(io.StringIO()):
            make().main([room])
        found = subprocess.run([SIEVED, "--version"], capture_output=True, text=True, check=True).stdout.split()[-1]
        deb, tarball = f"{room}/sieved_{found}_amd64.deb", f"{room}/sieved-{found}-linux-amd64.tar.gz"
        assert subprocess.run(["dpkg-deb", "-f", deb, "Version"], capture_output=True, text=True).stdout == f"{found}\n"
        released = [line.split()[1] for line in lines_of("CHANGELOG.md") if re.match(r"## [0-9.]+ - [0-9-]+$", line)]
        older = [version for version in released if version != found]
        for version in older:
            subprocess.run(["dpkg", "--compare-versions", found, "gt", version], check=True)
        subprocess.run(["dpkg-deb", "-x", deb, f"{room}/deb"], check=True)
        os.mkdir(f"{room}/tar")
        subprocess.run(["tar", "-C", f"{room}/tar", "-xf", tarball], check=True)
        count = 0
        for root in f"{room}/deb/usr/share/doc/sieved", f"{room}/tar/sieved-{found}":
            laid = [os.path.relpath(f"{folder}/{name}", root) for folder, _, names in os.walk(root) for name in names if name.endswith(".md")]
            assert sorted(laid) == sorted(pages()), laid
            count += links_below(root, laid)
    return f"{found}, {count} links"


def version():
    with open(f"{TOP}/crates/cli_subcommands/src/program.rt") as file:
        (found,) = re.findall(r'VERSION: &str = "([^"]*)"', file.read())
    said = subprocess.run([SIEVED, "--version"], capture_output=True, text=True).stdout.split()
    page = [line for line in lines_of("packaging/sieved.1") if line.startswith(".Os")]
    newest = [line for line in lines_of("CHANGELOG.md") if line.startswith("## ")][0]
    named = re.findall(r"sieved_(\S+)_amd64\.deb", "\n".join(lines_of("README.md")))
    plain = found.removesuffix("~dev")
    day = "unreleased" if found != plain else "[0-9]{4}-[0-9]{2}-[0-9]{2}"
    right = re.fullmatch(r"[0-9]+\.[0-9]+\.[0-9]+", plain) and re.fullmatch(rf"## {re.escape(plain)} - {day}", newest)
    if not right or said != ["sieved", found] or page != [f".Os sieved {found}"] or named != [found]:
        raise Exception(f"{found}, {said}, {page}, {newest}, {named}")
    return found


def completed(words):
    """What is offered behind these words, the last of which is begun."""
    script = 'source "$1"; shift; COMP_WORDS=("$@"); COMP_CWORD=$(($# - 1)); _sieved; printf "%s\\n" "${COMPREPLY[@]}"'
    done = subprocess.run(["bash", "-c", script, "-", f"{TOP}/packaging/completion/sieved", SIEVED, *words], capture_output=True, text=True, cwd="/")
    return set(done.stdout.split())


def completion():
    trials.need("bash")
    help_of = lambda *words: subprocess.run([SIEVED, *words, "--help"], capture_output=True, text=True).stdout
    listed = set(re.findall(r"^  +([a-z][a-z-]*) ", help_of().split("Commands:")[1].split("\n\n")[0], re.MULTILINE))
    offered = completed([""]) - {"--help", "--version"}
    if offered != listed or "deliver" not in listed:
        raise Exception(f"words: {sorted(offered ^ listed)}")
    if completed(["deli"]) != {"deliver"}:
        raise Exception(f"deli: {completed(['deli'])}")
    for word in sorted(listed):
        options = set(re.findall(r"--[a-z][a-z0-9-]*", help_of(word)))
        if completed([word, "--"]) != options or "--help" not in options:
            raise Exception(f"{word}: {sorted(completed([word, '--']) ^ options)}")
    return f"{len(listed)} words"


def modes():
    """Each file of these folders that names its interpreter can be run."""
    files = [f"{TOP}/{folder}/{name}" for folder in ("tests", "bench", "release", ".ci") for name in sorted(os.listdir(f"{TOP}/{folder}"))]
    scripts = [file for file in files if os.path.isfile(file) and open(file, "rb").read(2) == b"#!"]
    assert scripts and (idle := [file for file in scripts if not os.access(file, os.X_OK)]) == [], f"not executable: {idle}"
    return f"{len(scripts)} scripts"



def crates():
    with open(f"{TOP}/crates.txt") as file:
        return [line.partition(":")[0] for line in file if line.strip() and not line.startswith("#")]


def sources(crate, part):
    """The text of each file of a crate's `src` or `specs`."""
    for folder, _, files in sorted(os.walk(f"{TOP}/crates/{crate}/{part}")):
        for name in sorted(files):
            if name.endswith((".rt", ".antt")):
                with open(f"{folder}/{name}", encoding="utf-8") as file:
                    yield name, file.read()


def handed_out(crate):
    """The functions that others call by the crate's name: those that its `lib.rt` hands out, and those of its public modules."""
    texts = dict(sources(crate, "src"))
    lists = re.findall(r"^pub use [\w:]+?::(?:\{([^}]*)\}|(\w+));", texts.get("lib.rt", ""), re.M)
    named = {name for several, one in lists for name in re.findall(r"\b[a-z]\w*", several or one)}
    public = ["lib.rt"] + [f"{name}.rt" for name in re.findall(r"^pub mod (\w+);", texts.get("lib.rt", ""), re.M)]
    return named | {name for file in public for name in re.findall(r"^pub fn (\w+)", texts.get(file, ""), re.M)}


def names():
    """A crate begins with its family; a public type, definition or function has a name that no other has."""
    odd = [crate for crate in crates() if "_" in crate and crate.split("_")[0] not in FAMILIES]
    places, count = {}, 0
    for crate in crates():
        for part, form in DECLARED.items():
            for file, text in sources(crate, part):
                for name in re.findall(form, text, re.M):
                    places.setdefault((part, name), []).append(f"{crate}/{part}/{file}")
        for name in handed_out(crate):
            places.setdefault(("function", name), []).append(crate)
    double = [f"{name}: {' '.join(found)}" for (part, name), found in sorted(places.items()) if len(found) > 1 and name not in SAME]
    idle = [name for name in SAME if not any(len(found) > 1 for (_, other), found in places.items() if other == name)]
    assert places and not odd + double + idle, f"no family: {odd}; double: {'; '.join(double)}; not double: {idle}"
    return f"{len(places)} names"


def definitions():
    """DEFINITIONS is what its script prints."""
    printed, kept = definitions_page.page().split("\n"), lines_of("docs/DEFINITIONS.md")
    if printed != kept:
        at = next(at for at, (one, other) in enumerate(zip(printed + [None], kept + [None])) if one != other)
        raise Exception(f"line {at + 1}: run tests/definitions.py > docs/DEFINITIONS.md")
    return f"{len(kept) - 1} lines"


def planted():
    """Each wrong body of planted.rows stands once in its file, and has a name that no other has in its crate."""
    rows = planted_rows()
    faults = [f"{row.crate} {row.name}: {fault}" for row in rows.read_rows(rows.ROWS) if (fault := rows.fault_of(row))]
    names = [f"{row.crate}/{row.name}" for row in rows.read_rows(rows.ROWS)]
    edits = [f"{crate}/{name.removesuffix('.edit')}" for crate in crates() if os.path.isdir(f"{TOP}/crates/{crate}/must-fail") for name in os.listdir(f"{TOP}/crates/{crate}/must-fail")]
    double = sorted(name for name in set(names + edits) if (names + edits).count(name) > 1)
    assert not faults and not double and len(edits) <= EDITS, f"faults: {faults}; double: {double}; edits: {len(edits)}"
    return f"{len(names)} wrong bodies, beside {len(edits)} edits of the gate"


def capabilities():
    """SCRIPTS lists the capabilities that the code has, and a server names those of them that a script needs `require` for."""
    read = lambda path: open(f"{TOP}/{path}").read()
    names = re.findall(r'Capability::\w+ => b"([^"]+)"', read("crates/sieve_syntax/src/capability.rt"))
    listed = read("docs/SCRIPTS.md").split("The names that `require` takes are", 1)[1].split(", as they are written here", 1)[0]
    assert sorted(re.findall(r"`([^`]+)`", listed)) == sorted(names), (listed, names)
    free = ["comparator-i;octet", "comparator-i;ascii-casemap"]
    line = " ".join(name for name in names if name not in free)
    for path in "crates/sieve_syntax/src/capability.rt", "crates/sieve_syntax/specs/Capabilities.antt":
        assert f'"{line}"' in read(path), (path, line)
    return f"{len(names)} capabilities, {len(line.split())} of them named by a server"


def planted_rows():
    loader = importlib.machinery.SourceFileLoader("planted", f"{TOP}/tests/planted")
    spec = importlib.util.spec_from_loader("planted", loader)
    module = importlib.util.module_from_spec(spec)
    loader.exec_module(module)
    return module


TRIALS = {"modes": modes, "readme": readme, "lines": lines, "links": links, "decisions": decisions, "version": version, "package": package, "completion": completion, "names": names, "definitions": definitions, "planted": planted, "capabilities": capabilities}


def program(path):
    global SIEVED
    SIEVED = path


if __name__ == "__main__":
    trials.main(TRIALS, program)
