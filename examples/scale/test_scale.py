"""Tests of the job: each outcome, one table for each kind of cluster, and workers that die."""
import csv
import http.server
import io
import os
import pathlib
import signal
import subprocess
import sys
import threading
import time

import pytest
import scale
from distributed import Client, KilledWorker, LocalCluster

HERE = pathlib.Path(__file__).resolve().parent
MOST_BYTES, MEMORY = 40_000_000, 500_000_000
# The outcome, error, offset and number of tokens of each text.
TEXTS = {
    "a.wat": (b"(module (func $f))", ("ok", "", "", "9")),
    "b.wat": (b"(a\n \x01)", ("lexical error", "UNEXPECTED", "4", "3")),
    "c.wast": (b"(data \xff)", ("not UTF-8", "invalid start byte", "6", "")),
    "d.wat": (b"(" * (MOST_BYTES - 1), ("memory", "", "", "")),
    "e.wat": (b" " * (MOST_BYTES + 1), ("too long", "", "", "")),
    "f.wat": (b"", ("ok", "", "", "0")),
    "g.wat": (b"(module (func frob))", ("syntax error", "unknown instruction", "14", "9")),
}


class Slow(http.server.SimpleHTTPRequestHandler):
    """A server whose replies take 10 ms, so that a job of many texts is not over when a worker is killed."""

    def do_GET(self):
        time.sleep(0.01)
        super().do_GET()

    def log_message(self, *_):
        pass


@pytest.fixture(scope="module")
def texts(tmp_path_factory):
    folder = tmp_path_factory.mktemp("texts")
    for name, (text, _) in TEXTS.items():
        (folder / name).write_bytes(text)
    return folder


@pytest.fixture(scope="module")
def server(texts):
    (texts / "many").mkdir()
    for number in range(400):
        (texts / "many" / f"{number}.txt").write_text(f"(module (func) {'nop ' * (number % 7)}" + ")\x01"[: number % 3], encoding="utf-8")
    with http.server.ThreadingHTTPServer(("127.0.0.1", 0), lambda *given: Slow(*given, directory=texts)) as running:
        threading.Thread(target=running.serve_forever, daemon=True).start()
        yield f"http://127.0.0.1:{running.server_port}"
        running.shutdown()


@pytest.fixture
def cluster():
    with LocalCluster(n_workers=2, threads_per_worker=1, processes=True, dashboard_address=":0") as running:
        yield running


def table(path):
    with open(path, encoding="utf-8", newline="") as file:
        return list(csv.DictReader(file))


def rows_of(parts):
    """Returns the rows of the parts of a table."""
    return list(csv.DictReader(io.StringIO("".join(part.lines for part in parts), newline=""), scale.COLUMNS))


def is_gone(process):
    """Returns `True` if a process ends in 60 seconds."""
    for _ in range(600):
        try:
            os.kill(process, 0)
        except ProcessLookupError:
            return True
        time.sleep(0.1)
    return False


def run(source, out, *options):
    limits = ["--most-bytes", str(MOST_BYTES), "--memory", str(MEMORY)]
    words = [sys.executable, HERE / "scale.py", *limits, "--batch", "2", "--out", out, *options, source]
    return subprocess.run(words, check=True, capture_output=True, text=True).stdout


def test_each_outcome_on_one_machine_and_by_the_address_of_a_scheduler(texts, server, cluster, tmp_path):
    urls = tmp_path / "urls"
    lines = [*scale.urls_of(texts), f"{server}/a.wat", f"{server}/none.wat", "file:///none.wat", "gopher://a/b", "x"]
    urls.write_text("\n".join(lines) + "\n", encoding="utf-8")
    summary = run(urls, tmp_path / "one.csv", "--workers", "2")
    assert summary == run(urls, tmp_path / "two.csv", "--scheduler", cluster.scheduler_address)
    assert (tmp_path / "one.csv").read_bytes() == (tmp_path / "two.csv").read_bytes()
    rows = table(tmp_path / "one.csv")
    assert [row["url"] for row in rows] == lines
    assert [(row["outcome"], row["error"], row["offset"], row["tokens"]) for row in rows[: len(TEXTS)]] == [wanted for _, wanted in TEXTS.values()]
    assert [(row["outcome"], row["error"]) for row in rows[len(TEXTS) :]] == [
        ("ok", ""), ("unreadable", "HTTPError"), ("unreadable", "URLError"), ("unreadable", "URLError"), ("unreadable", "ValueError"),
    ]  # fmt: skip
    assert rows[0]["keywords"] == "func:1 module:1" and int(rows[0]["binary"]) > 8 and (rows[1]["line"], rows[1]["column"]) == ("2", "2")


@pytest.mark.parametrize("message, kind", [
    ("duplicate type `$\"a, b\"`, first defined at line 1, column 15", "duplicate type"),
    ("expected a module field or `)`, found `frob`", "expected a module field or `)`"),
    ("number out of range: expected 0 to 255, found `256`", "number out of range"),
    ("unknown function `$f`", "unknown function"),
])  # fmt: skip
def test_kinds_of_syntax_errors(message, kind):
    assert scale.kind_of(message) == kind


def test_a_killed_worker_loses_nothing(server, cluster):
    urls = [f"{server}/many/{number}.txt" for number in range(400)]
    with Client(cluster) as client:
        wanted = rows_of(scale.table(client, urls, 5, MOST_BYTES))
        assert len({row["outcome"] for row in wanted}) == 3 and len(wanted) == len(urls)
        workers = client.run(os.getpid)
        parts = scale.table(client, urls[::-1], 5, MOST_BYTES)
        found = [next(parts) for _ in range(len(urls) // 10)]
        os.kill(min(workers.values()), signal.SIGKILL)
        found += parts
        assert rows_of(found) == wanted[::-1] and is_gone(min(workers.values()))


class Fragile:
    """A future and a client whose workers die at one text."""

    def __init__(self, deadly, urls=()):
        self.deadly, self.urls = deadly, urls

    def submit(self, function, urls, most_bytes):
        return Fragile(self.deadly, urls)

    def map(self, function, batches, most_bytes):
        return [Fragile(self.deadly, urls) for urls in batches]

    def result(self):
        if self.deadly in self.urls:
            raise KilledWorker("part_of", None, 3)
        return scale.Part(({"url": url, "outcome": "ok"}, {}) for url in self.urls)


@pytest.mark.parametrize("batch", [1, 2, 3, 9])
def test_a_text_whose_workers_die_is_a_row(batch):
    rows = rows_of(scale.table(Fragile("c"), list("abcde"), batch, MOST_BYTES))
    assert [(row["url"], row["outcome"]) for row in rows] == [("a", "ok"), ("b", "ok"), ("c", "worker died"), ("d", "ok"), ("e", "ok")]
