"""A disk on which each sync takes longer, for any program that calls the C library: what `slow_disk.c` makes of it."""
import os, subprocess, tempfile

HERE = os.path.dirname(os.path.abspath(__file__))
MADE = tempfile.TemporaryDirectory(prefix="slow-disk-")


def library():
    """The library's path; it is made by cc once a run, and anybody may read it."""
    made = f"{MADE.name}/slow_disk.so"
    if not os.path.exists(made):
        subprocess.run(["cc", "-O2", "-shared", "-fPIC", "-o", made, f"{HERE}/slow_disk.c"], check=True)
        os.chmod(MADE.name, 0o755)
    return made


def environment(millis):
    """What a program's environment has beside its own, so that each of its syncs takes so many milliseconds more."""
    return {"LD_PRELOAD": library(), "SLOW_SYNC": str(round(1000 * millis))} if millis else {}


def dovecot(millis):
    """The line of a dovecot.conf by which all of Dovecot's processes have it; what starts Dovecot has `environment`."""
    return "import_environment = $import_environment LD_PRELOAD SLOW_SYNC\n" if millis else ""
