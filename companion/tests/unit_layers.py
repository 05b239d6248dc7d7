"""The layers of the package: each imports those below alone, and none below the faces prints, or takes signals."""
import ast
import pathlib
import unittest
from typing import Dict, Iterator, List, Tuple

SOURCES = pathlib.Path(__file__).resolve().parent.parent / "src/evacask"
# What each layer may import, besides itself.
BELOW: Dict[str, List[str]] = {
    "errors": [],
    "version": [],
    "model": ["errors"],
    "client": ["errors", "model"],
    "questions": ["errors", "model", "client"],
    "faces": ["errors", "version", "model", "client", "questions"],
    "api": ["errors", "version", "model", "client", "questions"],
    "__init__": ["errors", "version", "model", "client", "questions", "api"],
}
# Modules below the faces that are allowed a name all the same.
PRINTING = ("print", "input")


def imports(tree: ast.AST) -> Iterator[str]:
    """The modules that a source imports, by their full names."""
    for node in ast.walk(tree):
        if isinstance(node, ast.Import):
            yield from (it.name for it in node.names)
        elif isinstance(node, ast.ImportFrom):
            yield from (f"{node.module}.{it.name}" for it in node.names)


def layer_of(path: pathlib.Path) -> str:
    return path.relative_to(SOURCES).with_suffix("").parts[0]


def wrong_uses(tree: ast.AST) -> Iterator[str]:
    """What no module below the faces may use."""
    for node in ast.walk(tree):
        if isinstance(node, ast.Name) and node.id in PRINTING:
            yield node.id
        if (
            isinstance(node, ast.Attribute)
            and isinstance(node.value, ast.Name)
            and node.value.id == "sys"
            and node.attr in ("stdin", "stdout", "stderr")
        ):
            yield f"sys.{node.attr}"
    yield from (it for it in imports(tree) if it.split(".")[0] in ("signal", "argparse"))


class Layers(unittest.TestCase):
    def sources(self) -> List[Tuple[pathlib.Path, ast.AST]]:
        return [(path, ast.parse(path.read_text(encoding="utf-8"), feature_version=(3, 9))) for path in sorted(SOURCES.rglob("*.py"))]

    def test_no_step_upwards(self) -> None:
        for path, tree in self.sources():
            allowed = [layer_of(path), *BELOW[layer_of(path)]]
            for name in imports(tree):
                if name.split(".")[0] == "evacask":
                    with self.subTest(f"{path.name} imports {name}"):
                        self.assertIn(name.split(".")[1], allowed)

    def test_nothing_below_the_faces_prints_or_takes_signals(self) -> None:
        for path, tree in self.sources():
            if layer_of(path) != "faces":
                with self.subTest(str(path)):
                    self.assertEqual(list(wrong_uses(tree)), [])

    def test_only_the_standard_library(self) -> None:
        import sys

        if not hasattr(sys, "stdlib_module_names"):
            self.skipTest("Python before 3.10 doesn't name the modules of its library")
        for path, tree in self.sources():
            for name in imports(tree):
                self.assertTrue(
                    name.split(".")[0] in ("evacask", "__future__") or name.split(".")[0] in sys.stdlib_module_names, f"{path.name}: {name}"
                )

    def test_modules_and_functions_are_short(self) -> None:
        for path, tree in self.sources():
            with self.subTest(str(path)):
                self.assertLessEqual(len(path.read_text(encoding="utf-8").splitlines()), 250)
            for node in ast.walk(tree):
                if isinstance(node, (ast.FunctionDef, ast.AsyncFunctionDef)):
                    with self.subTest(f"{path.name}: {node.name}"):
                        self.assertLessEqual((node.end_lineno or 0) - node.lineno + 1, 42)


if __name__ == "__main__":
    unittest.main()
