"""The package and a program that uses it pass mypy --strict, and every public name has a docstring."""
import ast
import shutil
import subprocess
from pathlib import Path

import pytest

PYTHON = Path(__file__).resolve().parents[1]
PROGRAM = """
import dfr_comtrade

record: dfr_comtrade.Record = dfr_comtrade.read("fault.cfg")
current: dfr_comtrade.AnalogChannel = record.analog["IA"]
trip: dfr_comtrade.StatusChannel = record.status[0]
rates: list[dfr_comtrade.Rate] = record.rates
ids: list[str] = [channel.id for channel in record.analog[1:]]
scaled: float = current.a * current.min + current.b
dfr_comtrade.write("copy", record, binary=False, overwrite=True)
wrong: int = record.station  # type: ignore[assignment]
"""


def test_types(tmp_path):
    program = shutil.which("mypy") or pytest.skip("no mypy")
    (tmp_path / "program.py").write_text(PROGRAM)
    # (--strict also reports the line that has no error in spite of its `type: ignore`)
    words = [program, "--strict", "--cache-dir", str(tmp_path / "cache"), "dfr_comtrade", str(tmp_path / "program.py")]
    done = subprocess.run(words, cwd=PYTHON, stdout=subprocess.PIPE, text=True)
    assert done.returncode == 0, done.stdout


def undocumented(node, name):
    """The public modules, classes, functions and properties without a docstring."""
    if not ast.get_docstring(node):
        yield name
    for part in node.body:
        if isinstance(part, (ast.ClassDef, ast.FunctionDef)) and not part.name.startswith("_"):
            if isinstance(node, (ast.Module, ast.ClassDef)):
                yield from undocumented(part, f"{name}.{part.name}")


def test_docstrings():
    for path in sorted((PYTHON / "dfr_comtrade").glob("*.py")):
        is_public = not path.name.startswith("_") or path.name == "__init__.py"
        found = list(undocumented(ast.parse(path.read_text(encoding="utf-8")), path.stem)) if is_public else []
        assert found == []
