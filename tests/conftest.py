"""Lets pytest try the one list of tests/run (`pytest tests`, `pytest tests -k send`): each of its scripts is a test, which fails where
`tests/run` counts a failure, and is skipped where all was left out. Python alone tries them by `tests/run scripts`."""
import importlib.machinery, importlib.util, os, pathlib
import pytest

LIST = pathlib.Path(__file__).parent / "run"


def load():
    spec = importlib.util.spec_from_loader("run", importlib.machinery.SourceFileLoader("run", str(LIST)))
    module = importlib.util.module_from_spec(spec)
    spec.loader.exec_module(module)
    return module


class Script(pytest.Item):
    def __init__(self, *, of, script, **how):
        super().__init__(**how)
        self.of, self.script = of, script

    def runtest(self):
        if not os.path.isfile(self.of.PROGRAM):
            pytest.skip("no program: ./build makes it")
        passed, failed, left = self.of.try_script(self.script)
        if failed:
            pytest.fail(f"{passed} passed, {failed} failed, {left} left out", pytrace=False)
        if not passed:
            pytest.skip(f"{left} left out")

    def reportinfo(self):
        return LIST, None, f"tests/{self.name}"


class Scripts(pytest.File):
    def collect(self):
        of = load()
        return [Script.from_parent(self, name=script[0], of=of, script=script) for script in of.SCRIPTS + of.ALONE]


def pytest_collect_file(file_path, parent):
    return Scripts.from_parent(parent, path=file_path) if file_path == LIST else None
