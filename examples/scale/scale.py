#!/usr/bin/env python3
"""Compiles many WebAssembly texts with Dask's distributed scheduler, and writes a table with a row for each text.

usage: scale.py [--out FILE] [--workers N | --scheduler ADDRESS] [--batch N] [--most-bytes N] [--memory N] SOURCE

SOURCE is a folder, whose files `*.wat` and `*.wast` are read, or a file with a URL (file:, http: or https:) on each line. Without --scheduler the job
runs on workers of this machine. Workers on other machines need the package wat_lex, and must be able to read the URLs.

  --out FILE           the table, as CSV; default: table.csv
  --workers N          the number of workers; default: one for each processor
  --scheduler ADDRESS  the address of a running scheduler, such as tcp://10.0.0.1:8786
  --batch N            the number of texts of a task; default: 200
  --most-bytes N       a text of more bytes is not read; default: 67,108,864
  --memory N           a worker allocates at most this many bytes more than at its start; default: 1,073,741,824

A row has the URL, the number of bytes, and the outcome: `ok`, `lexical error`, `syntax error`, `not UTF-8`, `too long`, `memory` (an allocation
failed), `unreadable`, or `worker died` (each of several workers that read it). Then come the kind of the error, its message, offset, line and column,
the number of bytes of the binary, of tokens and of significant tokens, and the frequency of each keyword before the lexical error. The rows have the
order of the URLs, and do not depend on the workers. A task whose worker dies is run by another one.
"""
import argparse
import collections
import contextlib
import csv
import io
import pathlib
import re
import resource
import sys
import urllib.request

import wat_lex
from distributed import Client, KilledWorker, LocalCluster, WorkerPlugin

COLUMNS = ["url", "bytes", "outcome", "error", "message", "offset", "line", "column", "binary", "tokens", "significant", "keywords"]
# The settings of the compiler.
SETTINGS = {"allow_confusing": True, "strict_underscores": True}
SECONDS = 60


class Limit(WorkerPlugin):
    """Limits the memory of each worker, so that an allocation for a large text fails, instead of the system ending the process."""

    name = "limit"

    def __init__(self, memory):
        self.memory = memory

    def setup(self, worker):
        pages = int(pathlib.Path("/proc/self/statm").read_text(encoding="ascii").split()[0])
        hard = resource.getrlimit(resource.RLIMIT_AS)[1]
        resource.setrlimit(resource.RLIMIT_AS, (pages * resource.getpagesize() + self.memory, hard))


class Part:
    """The rows of some texts as CSV, the number of texts for each outcome and error, and the frequencies of all keywords."""

    def __init__(self, rows):
        self.outcomes, self.keywords = collections.Counter(), collections.Counter()
        lines = io.StringIO()
        writer = csv.DictWriter(lines, COLUMNS, lineterminator="\n")
        for row, keywords in rows:
            writer.writerow(row)
            self.outcomes[row["outcome"], row.get("error", "")] += 1
            self.keywords.update(keywords)
        self.lines = lines.getvalue()


def urls_of(source):
    """Returns the URLs of the texts of a folder, or those that a file lists."""
    if source.is_dir():
        return [path.as_uri() for path in sorted(source.resolve().rglob("*.wa*t")) if path.suffix in (".wat", ".wast") and path.is_file()]
    return [line.strip() for line in source.read_text(encoding="utf-8").split("\n") if line.strip()]


def keywords_of(text, rows):
    """Returns the frequencies of the keywords of a text."""
    rows = rows[rows["kind"] == wat_lex.Kind.KEYWORD]
    offsets, ends = rows["offset"].tolist(), (rows["offset"] + rows["length"]).tolist()
    return collections.Counter(text[offset:end].decode() for offset, end in zip(offsets, ends))


def columns_of(text):
    """Returns the columns of a text from `outcome` on, and the frequencies of its keywords."""
    try:
        rows, row = wat_lex.tokens(text, **SETTINGS), compiled(text)
    except wat_lex.LexError as error:
        rows, row = wat_lex.tokens(text, partial=True, **SETTINGS), error_row("lexical error", error.fault.name, error)
    significant = rows[rows["kind"] > wat_lex.Kind.WHITESPACE]
    keywords = keywords_of(text, significant)
    listed = " ".join(f"{word}:{count}" for word, count in sorted(keywords.items(), key=lambda item: (-item[1], item[0])))
    return row | {"tokens": len(rows), "significant": len(significant), "keywords": listed}, keywords


def compiled(text):
    """Returns the outcome of the compiler for a text without a lexical error, with the size of the binary or the error."""
    try:
        return {"outcome": "ok", "binary": len(wat_lex.compile(text))}
    except wat_lex.CompileError as error:
        return error_row("syntax error", kind_of(error.message), error)


def kind_of(message):
    """Returns the kind of a syntax error: its message without what was found, for example `unknown function`."""
    kind = re.split("[,:] ", message)[0]
    return kind if kind.startswith("expected") else kind.split(" `")[0]


def error_row(outcome, kind, error):
    """Returns the columns of an error."""
    return {"outcome": outcome, "error": kind, "message": error.message, "offset": error.offset, "line": error.line, "column": error.column}


def row_of(url, most_bytes):
    """Returns the row of a text, and the frequencies of its keywords. Whatever happens when the text is read is its outcome."""
    row = {"url": url}
    try:
        with urllib.request.urlopen(url, timeout=SECONDS) as source:
            text = source.read(most_bytes + 1)
        row["bytes"] = min(len(text), most_bytes)
        columns, keywords = columns_of(text) if len(text) <= most_bytes else ({"outcome": "too long"}, {})
        return row | columns, keywords
    except UnicodeDecodeError as error:
        return row | {"outcome": "not UTF-8", "error": error.reason, "offset": error.start}, {}
    except MemoryError:
        return row | {"outcome": "memory"}, {}
    except (OSError, ValueError) as error:
        return row | {"outcome": "unreadable", "error": type(error).__name__, "message": str(error)}, {}


def part_of(urls, most_bytes):
    """Returns the part of the table for a batch of texts. Workers make the lines, so that they do not wait for the client."""
    return Part(row_of(url, most_bytes) for url in urls)


def parts_of(client, future, urls, most_bytes):
    """Yields the parts of a batch: one. If several workers died that read it, its texts are read one after another, so that only the cause is blamed."""
    try:
        yield future.result()
    except KilledWorker:
        if len(urls) == 1:
            yield Part([({"url": urls[0], "outcome": "worker died"}, {})])
            return
        for url in urls:
            yield from parts_of(client, client.submit(part_of, [url], most_bytes), [url], most_bytes)


def table(client, urls, batch, most_bytes):
    """Yields the parts of the table, in the order of the URLs."""
    batches = [urls[start : start + batch] for start in range(0, len(urls), batch)]
    futures = client.map(part_of, batches, most_bytes=most_bytes)
    futures.reverse()
    for urls in batches:
        yield from parts_of(client, futures.pop(), urls, most_bytes)


def written(parts, path):
    """Writes the table as CSV, and returns the number of texts for each outcome and error, and the frequencies of all keywords."""
    outcomes, keywords = collections.Counter(), collections.Counter()
    with open(path, "w", encoding="utf-8", newline="") as file:
        file.write(",".join(COLUMNS) + "\n")
        for part in parts:
            file.write(part.lines)
            outcomes.update(part.outcomes)
            keywords.update(part.keywords)
    return outcomes, keywords


def cluster_of(given):
    """Returns a cluster on this machine, or the address of the scheduler that was given."""
    if given.scheduler:
        return contextlib.nullcontext(given.scheduler)
    return LocalCluster(n_workers=given.workers, threads_per_worker=1, processes=True, dashboard_address=":0")


def main():
    arguments = argparse.ArgumentParser()
    arguments.add_argument("--out", default="table.csv")
    arguments.add_argument("--workers", type=int)
    arguments.add_argument("--scheduler")
    arguments.add_argument("--batch", type=int, default=200)
    arguments.add_argument("--most-bytes", type=int, default=1 << 26)
    arguments.add_argument("--memory", type=int, default=1 << 30)
    arguments.add_argument("source", type=pathlib.Path)
    given = arguments.parse_args()
    with cluster_of(given) as cluster, Client(cluster) as client:
        client.register_worker_plugin(Limit(given.memory))
        outcomes, keywords = written(table(client, urls_of(given.source), given.batch, given.most_bytes), given.out)
    for (outcome, error), count in sorted(outcomes.items(), key=lambda item: (-item[1], item[0])):
        print(f"{count:>9}  {outcome} {error}".rstrip())
    for word, count in keywords.most_common(10):
        print(f"{count:>9}  keyword {word}")


if __name__ == "__main__":
    sys.exit(main())
