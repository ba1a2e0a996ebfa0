"""The crates of the workspace, as crates.txt lists them."""
import os

TOP = os.path.dirname(os.path.dirname(os.path.abspath(__file__)))


def stands_on():
    """The crates, lowest first, each with those of the repository that it stands on."""
    with open(f"{TOP}/crates.txt") as file:
        lines = [line.split(":") for line in file if line.strip() and not line.startswith("#")]
    names = {name for name, _ in lines}
    return {name: [below for below in rest.split() if below in names] for name, rest in lines}


def below(wanted, crates):
    """These crates and all below them, in the order of the list."""
    found, left = set(), list(wanted)
    while left:
        name = left.pop()
        if name not in found:
            found.add(name)
            left += crates[name]
    return [name for name in crates if name in found]
