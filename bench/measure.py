"""What the scripts of this folder share: the program that they measure, runs of whole processes, crates made for a measurement, tables."""
import functools, json, os, shlex, shutil, subprocess, sys, tempfile, time
from typing import NamedTuple

TOP = os.path.dirname(os.path.dirname(os.path.abspath(__file__)))
SIEVED = f"{TOP}/crates/sieved/out/sieved"
SALT = "00112233445566778899aabbccddeeff"
sys.path.insert(0, f"{TOP}/tests")


class Run(NamedTuple):
    """Milliseconds, the most memory in MiB (Python's own, where that is more), page faults, and what was printed."""
    ms: float
    mib: float
    faults: int
    out: bytes


def words_of(doc):
    """The words behind a script's name; `--help` prints what the script is."""
    if {"-h", "--help"} & set(sys.argv[1:]):
        print(doc.strip())
        sys.exit()
    return sys.argv[1:]


def program_of(words):
    """The program, and the words behind it: `--sieved SIEVED`, or SIEVED alone if it has a slash, or the repository's own."""
    if words[:1] == ["--sieved"] and words[1:]:
        return os.path.abspath(words[1]), words[2:]
    if words and "/" in words[0]:
        return os.path.abspath(words[0]), words[1:]
    return SIEVED, words


def ran(command, given=b"", told=None, cwd=None, env=None):
    """A run of a process, which reads octets or an open file, and writes into one that is told; one that fails ends the script."""
    with tempfile.TemporaryFile() as source, tempfile.TemporaryFile() as out, tempfile.TemporaryFile() as errors:
        if isinstance(given, bytes):
            source.write(given)
            source.seek(0)
        began = time.perf_counter()
        child = subprocess.Popen(command, stdin=source if isinstance(given, bytes) else given, stdout=told or out, stderr=errors, cwd=cwd, env=env)
        _, status, used = os.wait4(child.pid, 0)
        took = time.perf_counter() - began
        child.returncode = os.waitstatus_to_exitcode(status)
        out.seek(0), errors.seek(0)
        if child.returncode:
            sys.exit(f"{shlex.join(command)}: {child.returncode}: {errors.read().decode(errors='replace')}")
        return Run(took * 1000, used.ru_maxrss / 1024, used.ru_minflt, out.read())


def weighed(command, given=b"", cwd=None):
    """A run whose memory the command `time` tells, where that is installed: so Python's own isn't in it."""
    if not os.path.exists("/usr/bin/time"):
        return ran(command, given, cwd=cwd)
    with tempfile.NamedTemporaryFile() as told:
        run = ran(["/usr/bin/time", "-o", told.name, "-f", "%M", *command], given, cwd=cwd)
        return run._replace(mib=int(told.read().split()[-1]) / 1024)


@functools.cache
def hyperfine(option):
    """Whether hyperfine is installed, and knows an option."""
    return bool(shutil.which("hyperfine")) and option in subprocess.run(["hyperfine", "--help"], capture_output=True, text=True).stdout


def least(command, given=b"", before=(), runs=15):
    """The least milliseconds of some runs of a process, by hyperfine where it is installed (and, where something is read, knows
    `--input`, as from version 1.16 on), otherwise by this clock. `before` is a command that is run before each."""
    if not hyperfine("--input" if given else "--shell"):
        took = []
        for _ in range(runs):
            if before:
                ran(before)
            took.append(ran(command, given).ms)
        return min(took)
    with tempfile.NamedTemporaryFile() as told, tempfile.NamedTemporaryFile() as source:
        source.write(given)
        source.flush()
        more = (["--input", source.name] if given else []) + (["--prepare", shlex.join(before)] if before else [])
        ran(["hyperfine", "--shell", "none", "--style", "none", "--runs", str(runs), "--export-json", told.name, *more, shlex.join(command)])
        return 1000 * json.load(told)["results"][0]["min"]


def built(folder, name, needs, files, words=()):
    """A program crate of these files, beside hard links to the crates of this repository that it stands on (so what is proved of
    them is used), proved and built with `rt run`: the program."""
    with open(f"{TOP}/crates.txt") as file:
        rows = dict(line.rstrip("\n").split(":", 1) for line in file if ":" in line and not line.startswith("#"))
    found, left = set(), needs.split()
    while left:
        one = left.pop()
        if one in rows and one not in found:
            found.add(one)
            left += rows[one].split()
    os.makedirs(f"{folder}/crates/{name}/src", exist_ok=True)
    for one in found:
        if not os.path.exists(f"{folder}/crates/{one}"):
            subprocess.run(["cp", "-al", f"{TOP}/crates/{one}", f"{folder}/crates/{one}"], check=True)
    listed = "".join(f"{one}:{row}\n" for one, row in rows.items() if one in found)
    for path, text in {"../../crates.txt": f"{listed}{name}: {needs}\n", **files}.items():
        with open(f"{folder}/crates/{name}/{path}", "w") as file:
            file.write(text)
    ran(["rt", "run", *(["--", *words] if words else [])], cwd=f"{folder}/crates/{name}")
    return f"{folder}/crates/{name}/out/{name}"


def head(*cells):
    print(f"| {' | '.join(cells)} |\n|---|{'---:|' * (len(cells) - 1)}", flush=True)


def row(*cells):
    print(f"| {' | '.join(str(cell) for cell in cells)} |", flush=True)
