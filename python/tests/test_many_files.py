"""Tests of examples/many_files.py and geoarrow_fields.files: that each way gives the same reports, and that neither a broken file nor a lost worker ends a run."""
import concurrent.futures
import importlib.util
import io
import json
import os
import pathlib
import shutil
import signal
import subprocess
import sys
import tempfile
import threading
import unittest
from unittest import mock

from geoarrow_fields import files

from .shared import BROKEN, BROKEN_FOUND, CRS, DATA, FOUND, IS_EMPTY, IS_TEXT, TEXT, TOP, WKT

# What is found in geo.parquet, where each finding names its column.
NAMED = [one.replace("] ", f"] column {name}, ", 1) for one, name in zip(FOUND, ("geom", "geom", "place", "region"))]

SCRIPT = TOP / "examples/many_files.py"
HAS_DASK = all(importlib.util.find_spec(name) for name in ("dask", "distributed"))


def loaded():
    """The example as a module."""
    spec = importlib.util.spec_from_file_location("many_files", SCRIPT)
    module = importlib.util.module_from_spec(spec)
    spec.loader.exec_module(module)
    return module


class ManyFiles(unittest.TestCase):
    def setUp(self):
        there = tempfile.TemporaryDirectory()
        self.addCleanup(there.cleanup)
        self.folder = pathlib.Path(there.name)
        (self.folder / "below").mkdir()
        for name, text in (("a", f"{WKT}\n{CRS}\n"), ("b", f"{BROKEN}\n"), ("below/c", "\n"), ("d\n", f"{TEXT}\n")):
            (self.folder / name).write_text(text)
        shutil.copy(DATA / "file.arrow", self.folder / "e")
        (self.folder / "f").write_bytes((DATA / "file.arrow").read_bytes()[:-1])
        (self.folder / "g").symlink_to("nowhere")
        shutil.copy(DATA / "geo.parquet", self.folder / "h")
        self.wanted = [
            self.report("a", 2, ["g: wkb - -"]), self.report("b", 1, errors=[one.replace("] ", "] column b, ", 1) for one in BROKEN_FOUND], invalid=["b"]),
            self.report("below/c", error=IS_EMPTY), self.report("d\n", 1), self.report("e", 1, ["g: linestring interleaved XYM"]),
            self.report("f", error=(
                f"error[Truncated] byte {(DATA / 'file.arrow').stat().st_size - 1}: found {(DATA / 'file.arrow').read_bytes()[-9:-1].hex()}; expected ARROW1 at the end. "
                "The file is cut off, or still being written")),
            self.report("g", error="No such file or directory"),
            self.report("h", 3, ["geom: wkb - -", "place: wkb - -", "region: wkb - -"], NAMED[:2], NAMED[2:])]

    def report(self, name, columns=0, geometries=(), errors=(), warnings=(), invalid=(), error=None):
        return {
            "file": str(self.folder / name), "columns": columns, "geometries": list(geometries), "invalid": list(invalid), "errors": list(errors),
            "warnings": list(warnings), "error": error}

    def ran(self, *words):
        """The reports, by the names of the files, the summary and the status."""
        environment = {**os.environ, "PYTHONPATH": str(TOP / "python"), "PYTHONDONTWRITEBYTECODE": "1"}
        command = [sys.executable, str(SCRIPT), *map(str, words)]
        ran = subprocess.run(command, env=environment, stdout=subprocess.PIPE, stderr=subprocess.PIPE, timeout=120)
        lines = ran.stdout.decode().splitlines()
        self.assertTrue(lines, ran.stderr.decode())
        return sorted(map(json.loads, lines[:-1]), key=lambda one: one["file"]), lines[-1], ran.returncode

    def judge(self, way):
        found, last, status = self.ran("--with", way, self.folder)
        self.assertEqual(found, self.wanted)
        self.assertRegex(last, (
            r"^8 files: 8 columns, 5 of them geometries; 1 files with invalid columns, 2 with errors found, 3 not read; \d+\.\d s$"))
        self.assertEqual(status, 2)

    def test_a_loop(self):
        self.judge("loop")

    def test_threads(self):
        self.judge("threads")

    @unittest.skipUnless(HAS_DASK, "python3-dask and python3-distributed are not there")
    def test_dask(self):
        self.judge("dask")

    def test_statuses_and_what_is_inferred(self):
        for names, wanted in (("a", 0), ("ab", 1), ("ah", 1), ("ahg", 2)):
            self.assertEqual(self.ran("--with", "loop", *(self.folder / name for name in names))[2], wanted)
        found, _, status = self.ran("--with", "loop", "--infer", self.folder / "a")
        self.assertEqual((found[0]["geometries"], status), (["wkt: wkt - -", "g: wkb - -"], 0))

    def test_whatever_is_wrong_is_said(self):
        with mock.patch("geoarrow_fields.check", side_effect=RuntimeError("odd")):
            self.assertEqual([one["error"] for one in files.reports(["x", "y"])], ["odd", "odd"])
        with mock.patch("geoarrow_fields.check", side_effect=MemoryError):
            self.assertEqual(files.report("x")["error"], "MemoryError")

    def test_a_file_of_no_bytes_is_an_error_by_name(self):
        (self.folder / "none.parquet").touch()
        found, last, status = self.ran("--with", "loop", self.folder / "a", self.folder / "none.parquet")
        self.assertEqual([one["error"] for one in found], [None, IS_EMPTY])
        self.assertIn(" 1 not read; ", last)
        self.assertEqual(status, 2)


class Paths(unittest.TestCase):
    """Which files are named, and how far a run is; without the library."""

    def setUp(self):
        there = tempfile.TemporaryDirectory()
        self.addCleanup(there.cleanup)
        self.folder = pathlib.Path(there.name)
        for name in ("year=1/b", "year=1/a", "_delta_log/0.json", "year=1/_SUCCESS", "year=1/.a.crc", ".git/c", "year=1/a_b.c", "year=0"):
            (self.folder / name).parent.mkdir(parents=True, exist_ok=True)
            (self.folder / name).touch()

    def test_marks_and_checksums_in_a_folder_are_left_out(self):
        wanted = [str(self.folder / name) for name in ("year=0", "year=1/a", "year=1/a_b.c", "year=1/b")]
        self.assertEqual(list(files.paths_of([str(self.folder)])), wanted)

    def test_what_is_named_is_not_left_out(self):
        named = [str(self.folder / "year=1/_SUCCESS"), "nowhere/.x", str(self.folder / "_delta_log")]
        self.assertEqual(list(files.paths_of(named)), [*named[:2], str(self.folder / "_delta_log/0.json")])

    def test_a_line_of_progress_on_a_terminal_alone(self):
        example = loaded()
        for of_errors, of_output, wanted in ((True, False, "\r1 of 1,200 files, 1 not read\r\x1b[K"), (False, False, ""), (True, True, ""), (False, True, "")):
            shown = io.StringIO()
            with mock.patch.object(example.sys, "stderr", shown), mock.patch.object(example.sys, "stdout", io.StringIO()):
                example.sys.stderr.isatty, example.sys.stdout.isatty = lambda: of_errors, lambda: of_output
                progress = example.Progress(1200)
                progress.show({"files": 1, "error": 1})
                progress.show({"files": 2, "error": 2})  # (too soon)
                progress.end()
            self.assertEqual(shown.getvalue(), wanted)


class WithoutDask(unittest.TestCase):
    """What is made of a cluster's answers, by a stand-in for it."""

    def ran(self, client, patience=0.2):
        return list(loaded().dask_reports(["x", "y", "z"], True, client, patience))

    def client(self, *ends, workers=1):
        """A client whose tasks end so, in another order; those of which it is not known how do not end."""
        client = mock.Mock()
        client.nthreads.return_value = dict.fromkeys(range(workers), 1)
        futures = [mock.Mock(**{"result.side_effect": [end]}) for end in ends]
        for future, end in zip(futures, ends):
            if end is not None:
                future.add_done_callback.side_effect = lambda call, future=future: call(future)
        client.map.return_value = futures
        return client

    def test_what_a_task_raises_is_an_error_of_its_files(self):
        client = self.client([{"file": "x"}], ModuleNotFoundError("No module named 'geoarrow_fields'"), [{"file": "z"}])
        found = self.ran(client)
        self.assertEqual({one["file"]: one.get("error") for one in found}, {"x": None, "y": "No module named 'geoarrow_fields'", "z": None})
        call, texts, given = client.map.call_args[0]
        self.assertEqual((call, [one["paths"] for one in given], {one["infer"] for one in given}), (eval, [["x"], ["y"], ["z"]], {True}))
        with mock.patch.object(files, "reports", lambda paths, infer: (paths, infer)):
            self.assertEqual([call(text, dict(one)) for text, one in zip(texts, given)], [([one], True) for one in "xyz"])

    def given_up(self, client, *wanted):
        self.assertEqual(sorted((one["file"], one.get("error")) for one in self.ran(client)), list(zip("xyz", wanted)))

    def test_where_no_worker_is_left_the_files_are_given_up(self):
        self.given_up(self.client([{"file": "x"}], None, None, workers=0), None, "no worker is left", "no worker is left")

    def test_where_the_scheduler_is_lost_the_files_are_given_up(self):
        client = self.client([{"file": "x"}], concurrent.futures.CancelledError(), None)
        client.nthreads.side_effect = [{"a": 1}, OSError("nobody answers"), OSError("nobody answers"), OSError("nobody answers"), OSError("nobody answers")]
        self.given_up(client, None, "the cluster is lost", "no worker is left")

    def test_while_there_is_a_worker_its_task_is_waited_for(self):
        client, calls = self.client([{"file": "x"}], None, [{"file": "z"}]), []
        future = client.map.return_value[1]
        future.result.side_effect = [[{"file": "y"}]]
        future.add_done_callback.side_effect = calls.append
        threading.Timer(0.8, lambda: calls[0](future)).start()
        self.given_up(client, None, None, None)


@unittest.skipUnless(HAS_DASK, "python3-dask and python3-distributed are not there")
class Cluster(unittest.TestCase):
    """A scheduler and two workers, as processes of their own that are started elsewhere."""

    def setUp(self):
        there = tempfile.TemporaryDirectory()
        self.addCleanup(there.cleanup)
        self.folder = pathlib.Path(there.name)
        self.started = []
        self.addCleanup(self.stop)
        self.addCleanup(signal.signal, signal.SIGALRM, signal.signal(signal.SIGALRM, self.late))
        self.addCleanup(signal.alarm, 0)
        signal.alarm(180)
        self.address = self.folder / "scheduler.json"
        self.start("distributed.cli.dask_scheduler", "--port", "0", "--no-dashboard", "--scheduler-file", self.address)
        for number in range(60):
            (self.folder / f"{number:02}.jsonl").write_text(f"{TEXT}\n" if number % 7 else "no field\n")
        self.paths = sorted(map(str, self.folder.glob("*.jsonl")))

    def start(self, module, *words, **environment):
        given = {"PATH": os.environ["PATH"], "HOME": str(self.folder), "PYTHONDONTWRITEBYTECODE": "1", **environment}
        if "GEOARROW_C_LIBRARY" in os.environ:
            given["GEOARROW_C_LIBRARY"] = os.environ["GEOARROW_C_LIBRARY"]
        log = open(self.folder / "log", "ab")
        self.addCleanup(log.close)
        self.started.append(subprocess.Popen([sys.executable, "-m", module, *map(str, words)], cwd=self.folder, env=given, stdout=log, stderr=log))

    def late(self, *_):
        raise AssertionError("no end in time")

    def stop(self):
        for one in self.started:
            one.kill()
            one.wait()

    def client(self, **environment):
        """A client of two workers, each with this environment."""
        from distributed import Client

        for _ in range(2):
            self.start(
                "distributed.cli.dask_worker", "--scheduler-file", self.address, "--nthreads", "1", "--no-nanny", "--no-dashboard", "--local-directory",
                self.folder, **environment)
        client = Client(scheduler_file=str(self.address), timeout=60)
        self.addCleanup(client.close)
        client.wait_for_workers(2, timeout=60)
        return client

    def has_package(self):
        return self.client(PYTHONPATH=str(TOP / "python"))

    def reports(self, client, paths=None, patience=3.0):
        """The reports as they come; what loads the example has it under no name that a worker finds."""
        return loaded().dask_reports(self.paths if paths is None else paths, False, client, patience)

    def test_the_reports_are_those_of_a_loop(self):
        found = sorted(self.reports(self.has_package()), key=lambda one: one["file"])
        self.assertEqual(found, files.reports(self.paths))
        self.assertEqual({one["error"] for one in found}, {None, IS_TEXT})

    def test_the_command_with_a_scheduler(self):
        client = self.has_package()
        command = [sys.executable, str(SCRIPT), "--scheduler", client.scheduler.address, *self.paths]
        ran = subprocess.run(command, stdout=subprocess.PIPE, timeout=100, cwd=self.folder)
        self.assertEqual(sorted(map(json.loads, ran.stdout.decode().splitlines()[:-1]), key=lambda one: one["file"]), files.reports(self.paths))
        self.assertEqual(ran.returncode, 2)

    def test_workers_without_the_package(self):
        found = list(self.reports(self.client()))
        self.assertEqual(sorted(one["file"] for one in found), self.paths)
        self.assertEqual({one["error"] for one in found}, {"No module named 'geoarrow_fields'"})

    def begun(self):
        """A run over two workers, of which one waits at the last file until something is written there: its path, the reports so far, those that
        are to come, and the processes, first that of the worker that waits."""
        client, path = self.has_package(), self.folder / "waits.jsonl"
        os.mkfifo(path)
        processes = client.run(os.getpid)
        reports = self.reports(client, [*self.paths, str(path)])
        found = [next(reports) for _ in range(56)]  # (all but those of its part)
        busy = next(address for address, tasks in client.processing().items() if tasks)
        return str(path), found, reports, sorted(processes.values(), key=lambda one: one != processes[busy])

    def test_what_a_killed_worker_had_is_done_by_the_other(self):
        path, found, reports, processes = self.begun()
        waits = next(one for one in self.started if one.pid == processes[0])
        waits.kill()
        waits.wait()  # (until then it could be what reads what is written)
        threading.Thread(target=lambda: pathlib.Path(path).write_text(f"{TEXT}\n"), daemon=True).start()
        found += reports
        self.assertEqual(sorted(one["file"] for one in found), sorted([*self.paths, path]))
        self.assertEqual({one["error"] for one in found}, {None, IS_TEXT})

    def test_where_all_workers_are_killed_the_run_ends(self):
        path, found, reports, processes = self.begun()
        for one in processes:
            os.kill(one, signal.SIGKILL)
        rest = list(reports)
        self.assertEqual(sorted(one["file"] for one in [*found, *rest]), sorted([*self.paths, path]))
        self.assertEqual([one["error"] for one in rest], ["no worker is left"] * 5)

    def test_where_the_scheduler_is_killed_the_run_ends(self):
        path, found, reports, _ = self.begun()
        self.started[0].kill()
        rest = list(reports)
        self.assertEqual(sorted(one["file"] for one in [*found, *rest]), sorted([*self.paths, path]))
        self.assertEqual({one["error"] for one in rest}, {"the cluster is lost"})


if __name__ == "__main__":
    unittest.main()
