"""Packs the page into one file: pack.py MODULE.wasm OUT.html packs a module by hand; web/build says what may be claimed of it, and what it was made from.

The modules of page/ become one script: each is a value of what it exports, after those that it imports. The worker is packed alike, and goes into the page
as a text. The page's policy names the script and the style by their sums, so it runs no other.
"""
from __future__ import annotations

import base64
import hashlib
import json
import re
import sys
from pathlib import Path
from typing import Dict, List, Tuple

HERE = Path(__file__).resolve().parent
sys.path.insert(0, str(HERE.parent / "tools"))
from codes import CODES, COMMAND, statement_rows  # noqa: E402

PAGE = HERE / "page"
CLAIM = "This page runs the proved program's code, compiled for WebAssembly by steps that no proof covers and that the kit doesn't offer."
NO_CLAIM = "This page was made for a first look, from a module of which nothing says that it is proved."
EXAMPLES = ("office", "school", "two_exits", "stair_repair", "theatre", "metro", "tower")

IMPORT = re.compile(r"^import (\{[^}]*\}) from '\./([a-z_]+)\.js';$", re.MULTILINE)
EXPORT = re.compile(r"^export ((?:async )?(?:function\*?|class|const|let) ([A-Za-z_]+))", re.MULTILINE)
COMMENT = re.compile(r"^[ \t]*(?:/\*\*(?:[^*]|\*(?!/))*\*/|//[^\n]*)\n", re.MULTILINE)


def text_of_module(name: str) -> str:
    return (PAGE / f"{name}.js").read_text(encoding="utf-8")


def order(name: str, done: List[str]) -> None:
    """Adds a module to those that are done, after all that it needs and that aren't."""
    if name in done:
        return
    for _, other in IMPORT.findall(text_of_module(name)):
        order(other, done)
    done.append(name)


def packed(text: str) -> str:
    """A module's text without comments, whose imports are parts of other modules' values."""
    return EXPORT.sub(r"\1", COMMENT.sub("", IMPORT.sub(r"const \1 = \2_module;", text))).strip()


def bundle(name: str, given: Dict[str, str]) -> str:
    """A module and all that it imports as one script: of each other one a value of what it exports. The texts that are given stand for modules."""
    names: List[str] = []
    order(name, names)
    scripts = []
    for other in names[:-1]:
        text = given.get(other) or text_of_module(other)
        exported = ", ".join(it for _, it in EXPORT.findall(text))
        scripts.append(f"const {other}_module = (() => {{\n{packed(text)}\nreturn {{ {exported} }};\n}})();")
    return "\n".join([*scripts, packed(text_of_module(name))]) + "\n"


def plain(cell: str) -> str:
    """A cell of a table without the marks of code and links."""
    return re.sub(r"\[([^]]*)\]\([^)]*\)", r"\1", cell).replace("`", "").strip()


def code_table() -> Dict[str, Dict[str, Dict[str, str]]]:
    """The codes by their place or command, and the statements, as evacask has them."""
    found: Dict[str, Dict[str, Dict[str, str]]] = json.loads(CODES.read_text(encoding="utf-8"))
    return found


def codes_of(place: str) -> List[Tuple[int, str, str]]:
    """The codes of a place or command: what each means, and what to do."""
    return [(int(code), plain(it["meaning"]), plain(it["remedy"])) for code, it in code_table()[place].items()]


def codes() -> List[Tuple[int, str, str]]:
    """The codes of a building: what each means, and what to do."""
    return codes_of("building")


def edit_codes() -> List[Tuple[str, int, str, str]]:
    """The codes of an edit: its word, or nothing if it is any, and then the same."""
    commands = [key for key in code_table() if key.startswith(COMMAND)]
    return [(key[len(COMMAND) :], *it) for key in commands for it in codes_of(key)] + [("", *it) for it in codes_of("session")]


def statements() -> List[Tuple[str, str]]:
    """The statements of the language: the form of each, and its ranges."""
    return [(plain(form), plain("; ".join(filter(None, (ranges, often))))) for form, ranges, often in statement_rows(code_table())]


def parts(module: bytes, claim: str, made_from: str) -> str:
    """The module parts.js of the page, filled in."""
    examples = [(name, (HERE.parent / "examples" / f"{name}.evac").read_text(encoding="utf-8")) for name in EXAMPLES]
    values = {
        "MODULE": base64.b64encode(module).decode(),
        "WORKER": bundle("worker", {}),
        "EXAMPLES": examples,
        "CODES": codes(),
        "EDIT_CODES": edit_codes(),
        "STATEMENTS": statements(),
        "CLAIM": claim,
        "ORIGIN": made_from,
    }
    return "".join(f"export const {name} = {text_of(value)};\n" for name, value in values.items())


def text_of(value: object) -> str:
    """A value as JavaScript that holds no end of a script."""
    return json.dumps(value, ensure_ascii=False).replace("<", "\\u003c").replace("\u2028", "\\u2028").replace("\u2029", "\\u2029")


def sum_of(text: str) -> str:
    return base64.b64encode(hashlib.sha256(text.encode()).digest()).decode()


def policy(script: str, style: str) -> str:
    """The page's policy: its own script, style and worker, WebAssembly, and nothing else. Nothing is loaded or sent, no form and no frame."""
    return (
        f"default-src 'none'; script-src 'sha256-{sum_of(script)}' 'wasm-unsafe-eval'; style-src 'sha256-{sum_of(style)}'; "
        "worker-src blob:; connect-src 'none'; form-action 'none'; base-uri 'none'"
    )


def origin(digests: str, kit: str, module: bytes) -> str:
    """What a page was made from, in words: the sources by the sum of their digests, the kit by its name, and the module."""
    of_sources = hashlib.sha256(digests.encode("utf-8", "surrogateescape")).hexdigest()
    return f"sources SHA-256 {of_sources}, {kit}, module SHA-256 {hashlib.sha256(module).hexdigest()}"


def page_of(module: bytes, claim: str, made_from: str) -> str:
    """The page of a module, with what may be claimed of it and what it was made from, in words."""
    script = bundle("main", {"parts": parts(module, claim, made_from)})
    style = (PAGE / "style.css").read_text(encoding="utf-8")
    if "</" in style or re.search(r"</script|<!--", script, re.IGNORECASE):
        raise SystemExit("the script or the style would end too early")
    page = (PAGE / "index.html").read_text(encoding="utf-8")
    for name, text in (("@POLICY@", policy(script, style)), ("@STYLE@", style), ("@SCRIPT@", script)):
        page = page.replace(name, text)
    return page


def main(module: str, out: str) -> None:
    page = page_of(Path(module).read_bytes(), NO_CLAIM, "a module that was given by hand")
    Path(out).write_text(page, encoding="utf-8")


if __name__ == "__main__":
    main(*sys.argv[1:])
