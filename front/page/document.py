"""The page as one text: the data, the style and the script in it, and nothing from elsewhere."""
from __future__ import annotations

import base64
import hashlib
import html
import json
from pathlib import Path
from typing import Any

ASSETS = Path(__file__).parent / "assets"
SCRIPTS = (
    "model.js",
    "words.js",
    "lines.js",
    "dom.js",
    "shapes.js",
    "lanes.js",
    "drawing.js",
    "timeline.js",
    "panel.js",
    "config.js",
    "summary.js",
    "why.js",
    "markdown.js",
    "whatif.js",
    "address.js",
    "main.js",
)
# What could end the block of data, or a line of it, is written by number.
BY_NUMBER = {"<": "\\u003c", ">": "\\u003e", "&": "\\u0026", "\u2028": "\\u2028", "\u2029": "\\u2029"}


def page(title: str, data: dict[str, Any]) -> str:
    """Returns the page. Its policy allows its own style and its own script, each by its hash, and nothing else."""
    style = (ASSETS / "page.css").read_text("utf-8")
    script = "".join((ASSETS / name).read_text("utf-8") for name in SCRIPTS)
    script = f'"use strict";\n(() => {{\n{script}}})();\n'
    parts = {
        "title": html.escape(title),
        "policy": f"default-src 'none'; style-src '{_hash(style)}'; script-src '{_hash(script)}'; base-uri 'none'; form-action 'none'",
        "style": style,
        "data": embedded(data),
        "script": script,
    }
    pieces = (ASSETS / "page.html").read_text("utf-8").split("@@")
    return "".join(parts[piece] if i % 2 else piece for i, piece in enumerate(pieces))


def embedded(data: Any) -> str:
    """Returns JSON that is safe in a page, whatever its texts hold."""
    text = json.dumps(data, ensure_ascii=False, separators=(",", ":"))
    for character, number in BY_NUMBER.items():
        text = text.replace(character, number)
    return text


def _hash(text: str) -> str:
    return "sha256-" + base64.b64encode(hashlib.sha256(text.encode()).digest()).decode()
