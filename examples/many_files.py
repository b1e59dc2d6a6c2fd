#!/usr/bin/env python3
"""Checks many files, a report for each as it comes, and one summary: examples/many_files.py [--with dask|threads|loop] [--infer] PATH..

A PATH is a file, or a folder with all files in it but those whose names begin with `_` or `.`; `-` is a list of paths on standard input. A report is a
line of JSON (geoarrow_fields.files): the `file`, its number of `columns`, its `geometries`, the names of its `invalid` columns and what is found in words, of its
columns and of the file, the `errors` apart from the `warnings`; and an `error` where it cannot be read, as one of 0 bytes, which never ends the run. The
summary is the last line. How far the run is stands on standard error where that is a terminal, and standard output is not. The status is 2 where
a file cannot be read, 1 where a column is invalid or what is found is an error, otherwise 0.

`--scheduler ADDRESS` gives the files to the workers of a running Dask cluster. Each needs the package of `python/`, and the files under the same paths; a worker
that lacks the package, or is lost, is an `error` of its files. With Spark, the package on each executor:

    from geoarrow_fields.files import reports
    for one in spark.sparkContext.parallelize(paths, len(paths) // 100 + 1).mapPartitions(reports).toLocalIterator():
        print(one)

With Ray:

    task = ray.remote(reports)
    for part in [task.remote(paths[at:at + 100]) for at in range(0, len(paths), 100)]:
        print(*ray.get(part), sep="\n")

With Dask it needs python3-dask and python3-distributed, here and on each worker.
"""
import argparse
import collections
import concurrent.futures
import json
import os
import pathlib
import queue
import sys
import time
from typing import Any, Dict, Iterable, Iterator, List, Optional, Sequence, Tuple

try:
    from geoarrow_fields.files import Report, failed, paths_of, report, reports
except ImportError:
    sys.path.insert(0, str(pathlib.Path(__file__).resolve().parent.parent / "python"))
    from geoarrow_fields.files import Report, failed, paths_of, report, reports

MOST = 100  # paths of one task
PATIENCE = 60.0  # seconds without any worker, behind which none is waited for

# What a worker does with the paths of a task. It is a text, since a function is looked up when a worker unpacks the task, and where its module is
# not there that breaks the worker's connection and not the task.
TASK = "__import__('geoarrow_fields.files').files.reports(paths, infer)"


def loop_reports(paths: Sequence[str], infer: bool = False) -> Iterator[Report]:
    """The reports of a loop."""
    return (report(path, infer) for path in paths)


def thread_reports(paths: Sequence[str], infer: bool = False) -> Iterator[Report]:
    """The reports of threads, in order: the library works beside Python's own code."""
    with concurrent.futures.ThreadPoolExecutor(os.cpu_count()) as pool:
        for some in pool.map(lambda part: reports(part, infer), _parts(paths, os.cpu_count() or 1)):
            yield from some


def dask_reports(paths: Sequence[str], infer: bool = False, client: Any = None, patience: float = PATIENCE) -> Iterator[Report]:
    """The reports of Dask's workers, as they come: those of a client, or else of this machine's processors. What a lost worker had is done by another;
    where that ends several workers, or none is left for so many seconds, the reports of the files say so."""
    if client is None:
        from distributed import Client

        with Client(n_workers=os.cpu_count(), threads_per_worker=1, dashboard_address=None) as client:
            yield from dask_reports(paths, infer, client, patience)
        return
    parts = _parts(paths, max(1, sum(client.nthreads().values())))
    given = dict(zip(client.map(eval, [TASK] * len(parts), [{"paths": part, "infer": infer} for part in parts], pure=False), parts))
    for future, found in _ended(client, given, patience):
        yield from [failed(path, found) for path in given[future]] if isinstance(found, Exception) else found


def _ended(client: Any, futures: Iterable[Any], patience: float) -> Iterator[Tuple[Any, Any]]:
    """Each future as it ends, with its reports or what it failed by; those that nobody works on are given up."""
    waiting, seen = set(futures), time.monotonic()
    ended: "queue.Queue[Any]" = queue.Queue()
    for future in waiting:
        future.add_done_callback(ended.put)
    while waiting and time.monotonic() - seen <= patience:
        try:
            future = ended.get(timeout=min(1.0, patience))
        except queue.Empty:
            if not _has_worker(client):
                continue
        else:
            waiting.discard(future)
            yield future, _outcome(future, patience)
        seen = time.monotonic()
    for future in waiting:
        yield future, RuntimeError("no worker is left")


def _has_worker(client: Any) -> bool:
    try:
        return bool(client.nthreads())
    except Exception:  # whatever it is, the scheduler does not answer
        return False


def _outcome(future: Any, patience: float) -> Any:
    """The reports of a future that has ended, or what it failed by, as where its worker is lost before they are fetched."""
    try:
        return future.result(timeout=patience)
    except concurrent.futures.CancelledError:
        return RuntimeError("the cluster is lost")
    except Exception as error:
        return error


def _parts(paths: Sequence[str], workers: int) -> List[List[str]]:
    """The paths in parts: some for each worker, and none too large."""
    size = max(1, min(MOST, len(paths) // (4 * workers)))
    return [list(paths[at:at + size]) for at in range(0, len(paths), size)]


def named(words: Sequence[str]) -> Iterator[str]:
    """The words, with the lines of standard input in place of `-`."""
    for word in words:
        if word == "-":
            yield from (line.rstrip("\n") for line in sys.stdin)
        else:
            yield word


class Progress:
    """A line that says how far a run is, on standard error; none where that is no terminal, or standard output is one."""

    def __init__(self, files: int) -> None:
        self.files = files
        self.is_shown = sys.stderr.isatty() and not sys.stdout.isatty()
        self.next = 0.0

    def show(self, counts: Dict[str, int]) -> None:
        now = time.monotonic()
        if self.is_shown and now >= self.next:
            self.next = now + 0.2
            print(f"\r{counts['files']:,} of {self.files:,} files, {counts['error']:,} not read", end="", file=sys.stderr, flush=True)

    def end(self) -> None:
        if self.is_shown:
            print("\r\x1b[K", end="", file=sys.stderr, flush=True)


def summary(counts: Dict[str, int], seconds: float) -> str:
    """The summary of a run."""
    return ("{files:,} files: {columns:,} columns, {geometries:,} of them geometries; {invalid:,} files with invalid columns, {errors:,} with errors "
            "found, {error:,} not read; ".format_map(counts) + f"{seconds:.1f} s")


WAYS = {"dask": dask_reports, "threads": thread_reports, "loop": loop_reports}


def reports_by(asked: argparse.Namespace, paths: Sequence[str]) -> Iterator[Report]:
    """The reports of the files, in the way that is asked for."""
    if asked.scheduler is None:
        yield from WAYS[asked.way](paths, asked.infer)
        return
    from distributed import Client

    with Client(asked.scheduler) as client:
        yield from dask_reports(paths, asked.infer, client, asked.patience)


def main(words: Optional[Sequence[str]] = None) -> int:
    parser = argparse.ArgumentParser(description="Checks many files.")
    parser.add_argument("paths", metavar="PATH", nargs="+", help="a file, a folder, or - for a list of paths on standard input")
    parser.add_argument("--with", dest="way", choices=WAYS, default="dask")
    parser.add_argument("--scheduler", metavar="ADDRESS", help="the scheduler of a running Dask cluster, as tcp://host:8786")
    parser.add_argument("--patience", metavar="SECONDS", type=float, default=PATIENCE, help="how long to wait while a cluster has no worker (60)")
    parser.add_argument("--infer", action="store_true", help="infer a type for columns without an extension name")
    asked = parser.parse_args(words)
    counts: "collections.Counter[str]" = collections.Counter()
    begun = time.monotonic()
    paths = list(paths_of(named(asked.paths)))
    progress = Progress(len(paths))
    for one in reports_by(asked, paths):
        print(json.dumps(one, ensure_ascii=True), flush=True)
        counts.update(
            files=1, columns=one["columns"], geometries=len(one["geometries"]), invalid=bool(one["invalid"]), errors=bool(one["errors"]),
            error=one["error"] is not None)
        progress.show(counts)
    progress.end()
    print(summary(counts, time.monotonic() - begun))
    return 2 if counts["error"] else 1 if counts["invalid"] or counts["errors"] else 0


if __name__ == "__main__":
    sys.exit(main())
