#!/usr/bin/env python3
"""Runs the commands of a page in the current folder, in order, and compares what they print.

usage: tools/release/run_document.py [--section HEADING] [--without FILE] PAGE

Each code block `sh` is a script for bash. Its standard output must be the block `text` after it, if there is one, and its status must be 0. A block
after the line `<!-- as FILE -->` is written to that file. A block after the line `<!-- needs NAME.. -->` is skipped unless each name is a command
on the path or a file. `--section` runs the blocks of one section, `--without` does not write FILE. Each block starts in the current folder. The exit
status is 1 if a command fails or prints something else, or if no command ran.
"""
import argparse
import os
import pathlib
import re
import shutil
import signal
import subprocess
import sys
import time

BLOCK = re.compile(r"^(?:<!-- (?P<note>as|needs) (?P<names>[^\n]*) -->\n)?```(?P<language>\w*)\n(?P<body>.*?)^```$", re.S | re.M)
LIMIT = 600


def section(text, heading):
    """Returns the section of a heading, up to the next heading of any level."""
    found = re.search(rf"^#+ {re.escape(heading)}\n(.*?)(?=^#+ |\Z)", text, re.S | re.M)
    return found[1]


def missing(names):
    """Returns the names that are neither a command nor a file."""
    return [name for name in names if not shutil.which(name) and not pathlib.Path(name).exists()]


def save(name, body):
    """Writes a block to the file that the page names."""
    path = pathlib.Path(name)
    path.parent.mkdir(parents=True, exist_ok=True)
    path.write_text(body, encoding="utf-8")


def output(script):
    """Runs a script and returns its status, standard output and standard error. After `LIMIT` seconds, kills its processes and returns `None`."""
    command = ["bash", "-euo", "pipefail", "-c", script]
    begun = subprocess.Popen(command, stdin=subprocess.DEVNULL, stdout=subprocess.PIPE, stderr=subprocess.PIPE, text=True, process_group=0)
    try:
        printed, errors = begun.communicate(timeout=LIMIT)
    except subprocess.TimeoutExpired:
        os.killpg(begun.pid, signal.SIGKILL)
        begun.communicate()
        return None
    return begun.returncode, printed, errors


def run(script, wanted):
    """Runs a script and reports it. Returns `True` if it printed `wanted`, or anything if that is `None`, with status 0."""
    begun = time.monotonic()
    done = output(script)
    if done is None:
        print(f"run_document.py: not done after {LIMIT} s: {script.strip()}")
        return False
    status, printed, errors = done
    right = status == 0 and wanted in (None, printed)
    print(f"run_document.py: {'as wanted' if right else 'WRONG'}, {time.monotonic() - begun:.1f} s: {script.strip()}", flush=True)
    if not right:
        print(f"status {status}\n{printed}{errors}", flush=True)
    return right


def results(text, without):
    """Yields the result of each command: `True` if it was as wanted, `False` if it was not, `None` if it was skipped."""
    blocks = list(BLOCK.finditer(text))
    for block, after in zip(blocks, blocks[1:] + [None]):
        lacking = missing(block["names"].split()) if block["note"] == "needs" else []
        if block["note"] == "as" and block["names"] != without:
            save(block["names"], block["body"])
        elif block["language"] == "sh" and lacking:
            print(f"run_document.py: skipped, without {', '.join(lacking)}: {block['body'].strip()}")
            yield None
        elif block["language"] == "sh" and block["note"] != "as":
            wanted = after["body"] if after and after["language"] == "text" else None
            yield run(block["body"], wanted)


def main():
    arguments = argparse.ArgumentParser()
    arguments.add_argument("page", type=pathlib.Path)
    arguments.add_argument("--section")
    arguments.add_argument("--without")
    asked = arguments.parse_args()
    text = asked.page.read_text(encoding="utf-8")
    found = list(results(section(text, asked.section) if asked.section else text, asked.without))
    print(f"run_document.py: {asked.page.name}: {found.count(True)} commands as wanted, {found.count(False)} wrong, {found.count(None)} skipped")
    return found.count(False) > 0 or found.count(True) == 0


if __name__ == "__main__":
    sys.exit(main())
