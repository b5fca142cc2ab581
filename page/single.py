#!/usr/bin/env python3
"""Writes the page of a folder as a single file, which a browser can also open from disk. The style sheet, the scripts and the module are embedded.

usage: single.py FOLDER > wat.html
"""
import base64
import hashlib
import json
import pathlib
import re
import sys

folder = pathlib.Path(sys.argv[1])
# The scripts, each after those that it imports.
PACKAGE = [f"wat-lex/{name}.js" for name in ("lexer", "sums", "lines", "rows", "reader", "tokens", "whole")]
SCRIPTS = [*PACKAGE, *(f"{name}.js" for name in ("dom", "sight", "columns", "ahead", "edits", "names", "counts", "binary", "values", "run", "module", "examples", "link", "page"))]
# The scripts of each worker.
WORKERS = {"worker.js": ["wat-lex/lexer.js", "worker.js"], "runner.js": ["values.js", "runner.js"]}


def read(name):
    return (folder / name).read_text(encoding="utf-8")


def replaced(text, old, new):
    if text.count(old) != 1:
        sys.exit(f"single.py: {old!r} is in the page {text.count(old)} times, and not once")
    return text.replace(old, new)


def joined(names):
    """Returns the scripts of these names as one, without `import` and `export`, so that each can use the declarations of the others."""
    script = "".join(read(name) for name in names)
    script = re.sub(r"^import .*\n", "", script, flags=re.M)
    return re.sub(r"^export ", "", script, flags=re.M)


module = base64.b64encode((folder / "wat-lex/wat_lex.wasm").read_bytes()).decode()
script = joined(SCRIPTS)
script = replaced(
    script,
    "await fetch('wat-lex/wat_lex.wasm').then((answer) => answer.arrayBuffer())",
    f"Uint8Array.from(atob('{module}'), (it) => it.charCodeAt(0))",
)
for name, scripts in WORKERS.items():
    script = replaced(
        script,
        f"new Worker('{name}', {{ type: 'module' }})",
        f"new Worker(URL.createObjectURL(new Blob([{json.dumps(joined(scripts))}], {{ type: 'text/javascript' }})))",
    )
script = f"\n{script}"
style = f"\n{read('style.css')}"


def source(text):
    """Returns the source expression by which the page's content security policy allows this text."""
    return f"'sha256-{base64.b64encode(hashlib.sha256(text.encode()).digest()).decode()}'"


page = replaced(read("index.html"), '<link rel="stylesheet" href="style.css">', f"<style>{style}</style>")
page = replaced(page, '<script type="module" src="page.js"></script>', f'<script type="module">{script}</script>')
page = replaced(page, "script-src 'self'", f"script-src {source(script)}")
page = replaced(page, "style-src 'self'; connect-src 'self'; worker-src 'self'", f"style-src {source(style)}; worker-src blob:")
sys.stdout.write(page)
