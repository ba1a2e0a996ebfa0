"""Runs trials by name and tells how each ended, for the scripts of tests/: a line for each, and a last line that counts them."""
import os, shutil, sys, time


QUICK = False


class LeftOut(Exception):
    """A tool or a right that a trial needs isn't here."""


def need(*tools):
    for tool in tools:
        if not shutil.which(tool):
            raise LeftOut(f"no {tool}")


def need_root():
    if os.geteuid():
        raise LeftOut("no root")


def some(count):
    """How often a trial does what it does many times: a tenth where `--quick` asks for that."""
    return max(count // 10, 1) if QUICK else count


def run(trials, words=()):
    """Runs the trials that are named, by their names or by what stands before a `_` in them, or all. Returns 1 where one failed, else 0."""
    counts = {"passed": 0, "failed": 0, "left out": 0}
    matches = lambda name, word: name == word or name.startswith(f"{word}_")
    unknown = [word for word in words if not any(matches(name, word) for name in trials)]
    if unknown:
        sys.exit(f"no trial: {' '.join(unknown)}")
    for name in [name for name in trials if not words or any(matches(name, word) for word in words)]:
        began = time.time()
        try:
            said, how = f"{name}: {trials[name]()} ({time.time() - began:.1f} s)", "passed"
        except LeftOut as why:
            said, how = f"left out: {name}, {why}", "left out"
        except (Exception, SystemExit) as error:
            said, how = f"{name}: FAILED: {error!r}"[:2_000], "failed"
        counts[how] += 1
        print(said, flush=True)
    print(", ".join(f"{count} {how}" for how, count in counts.items()), flush=True)
    return 1 if counts["failed"] else 0


def main(trials, program):
    """Reads `[--quick] [--sieved SIEVED] [TRIAL ..]`, calls `program` with SIEVED where it is named, and runs the trials."""
    global QUICK
    words = sys.argv[1:]
    if words[:1] == ["--quick"]:
        QUICK = True
        words = words[1:]
    if words[:1] == ["--sieved"]:
        program(os.path.abspath(words[1]))
        words = words[2:]
    sys.exit(run(trials, words))
