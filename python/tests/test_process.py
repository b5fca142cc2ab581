"""Tests of threads, of memory, and of the type stubs."""
import os
import pathlib
import shutil
import subprocess
import sys
import threading
import time

import pytest
import wat_lex

# Makes 1,000,000 calls, and prints by how many kilobytes the peak of the process's memory grows after the first 140,000.
CALLS = """
import resource, wat_lex

TEXT, WRONG, DATA = '(func $f) ;; é', 'a "\\\\q" \\x01 (; b', b'(func) ' * 9

def rejected(call, text):
    try:
        call(text)
    except ValueError as error:
        return str(error), getattr(error, "excerpt", None)
    raise AssertionError(text)

def calls():
    wat_lex.tokens(TEXT), wat_lex.tokens(DATA), wat_lex.significant(DATA), wat_lex.line_col(TEXT, [0, 9])
    rejected(wat_lex.tokens, WRONG), rejected(wat_lex.significant, WRONG), rejected(wat_lex.tokens, b"\\xff")
    [error.excerpt for error in wat_lex.errors(WRONG)]
    wat_lex.compile(DATA), wat_lex.format(TEXT), wat_lex.check(DATA), wat_lex.check(WRONG), rejected(wat_lex.compile, "(a)"), rejected(wat_lex.format, WRONG)

def peak(times):
    for _ in range(times):
        calls()
    return resource.getrusage(resource.RUSAGE_SELF).ru_maxrss

first = peak(10_000)
print(peak(75_000) - first)
"""


def test_memory_does_not_grow_over_a_million_calls():
    done = subprocess.run([sys.executable, "-c", CALLS], capture_output=True, text=True, check=True)
    assert int(done.stdout) < 1024


def longest_pause(text):
    """Returns the longest pause of this thread while another calls `tokens`, as a multiple of the time of the shortest call."""
    times, pauses = [], []

    def call():
        for _ in range(3):
            begun = time.perf_counter()
            wat_lex.tokens(text)
            times.append(time.perf_counter() - begun)

    other, last = threading.Thread(target=call), time.perf_counter()
    other.start()
    while other.is_alive():
        pauses.append(time.perf_counter() - last)
        last += pauses[-1]
    return max(pauses) / min(times)


def test_other_threads_run_during_a_call():
    """The text is one token, so each call of the library takes as long as `tokens`, and a thread that could not run during it would pause as long.
    As other processes can interrupt the thread, it is a fault only if it pauses in each of ten tries."""
    text, pauses = b'"' + b"\\u{1}" * 20_000_000 + b'"', []
    while len(pauses) < 10 and min(pauses, default=1) >= 0.5:
        pauses.append(longest_pause(text))
    assert min(pauses) < 0.5, pauses


def test_stubs_agree_with_the_package(tmp_path):
    if not shutil.which("stubtest"):
        pytest.skip("stubtest is not installed (Debian: mypy)")
    folder = str(pathlib.Path(wat_lex.__file__).parents[1])
    (tmp_path / "mypy.ini").write_text("[mypy]\n[mypy-_cffi_backend]\nignore_missing_imports = True\n", encoding="utf-8")
    (tmp_path / "allowed").write_text("wat_lex.libwat\n", encoding="utf-8")  # the shared library, which stubtest takes for a module
    words = ["stubtest", "--mypy-config-file", "mypy.ini", "--allowlist", "allowed", "wat_lex"]
    environment = os.environ | {"MYPYPATH": folder, "PYTHONPATH": folder}
    done = subprocess.run(words, capture_output=True, text=True, check=False, cwd=tmp_path, env=environment)
    assert done.returncode == 0, done.stdout + done.stderr
