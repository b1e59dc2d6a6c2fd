"""The command that prints the lines of a file, or what the programs say of them.

    interop/arrow_lines.py FILE | bin/geoarrow_check -
    interop/arrow_lines.py --check FILE
    interop/arrow_lines.py --check --json FILE
    interop/arrow_lines.py --ask columns FILE

FILE is a `.parquet`, `.arrow` or `.feather` file, for which pyarrow is needed, or one that GDAL opens, for which its
library is, also by a path of its virtual file systems, such as `/vsizip/FILE` and `/vsistdin/`. The first form prints a
line a column (docs/FORMAT.md, 2.1 and 2.7), the second and third print what `geoarrow_check --infer` says of them, as a table or
as lines of JSON, the last the answers of `geoarrow_fields` to one of its commands. `--layer NAME` names another layer than the
first; `--all-layers` takes all, in order: their lines or answers one after another, and each table behind a line `layer NAME`.

Status 0; 1 where `--check` finds an invalid column; 2 where the file cannot be read, the program does not run or the
output cannot be written, which one line on standard error then says; 141, and nothing said, where nobody reads the
output any more. A pipe hands no status on, and its reader may take no lines for a schema without columns: so where the
first form fails and prints to a pipe, it prints `error input`, which is no field.
"""
import argparse
import os
import pathlib
import stat
import subprocess
import sys
from typing import List, Optional, Sequence, TextIO, Tuple

from .making import SchemaError, shown

from .files import FileError, Layer, layers_of_file

BIN = pathlib.Path(__file__).resolve().parent.parent / "bin"
FIELDS, CHECK = BIN / "geoarrow_fields", BIN / "geoarrow_check"
INVALID, FAILED = 1, 2
NO_READER = 128 + 13  # what a shell says of a command that the signal SIGPIPE ends
# What geoarrow_check prints of a schema without columns, for which it is not asked: a table, and with --json.
NO_COLUMNS = "  column  holds  CRS  edges\n"
NO_LINES = '{"kind":"file","read":true,"columns":0,"geometries":0,"errors":0,"warnings":0,"notes":0,"status":0}\n'


class ProgramError(Exception):
    """The program did not run, or did not answer each line."""


class OutputError(Exception):
    """Standard output cannot be written; the text says why, or nothing where its reader has gone."""


def main(arguments: Optional[Sequence[str]] = None, name: str = "arrow_lines.py") -> int:
    """Runs the command with these arguments, else those of the process. Its status."""
    if sys.stderr is None:
        sys.stderr = open(os.devnull, "w")
    try:
        if sys.stdout is None:
            raise OutputError("it is closed")
        return _run(_words(name, arguments))
    except SystemExit as end:  # --help, or arguments that are refused
        return FAILED if end.code else 0
    except OutputError as error:
        if not str(error):
            return NO_READER
        _tell(f"standard output: {error}")
        return FAILED


def _words(name: str, arguments: Optional[Sequence[str]]) -> argparse.Namespace:
    parser = argparse.ArgumentParser(
        prog=name, description="Prints the schema of a file as the program's lines, a line a column, or checks it.")
    parser.add_argument(
        "file", metavar="FILE", help="a .parquet, .arrow or .feather file, or what GDAL opens, with its /vsi paths")
    layers = parser.add_mutually_exclusive_group()
    layers.add_argument("--layer", metavar="NAME", help="the layer, where the file has several; else the first")
    layers.add_argument("--all-layers", action="store_true", help="all layers, in order")
    forms = parser.add_mutually_exclusive_group()
    forms.add_argument("--ask", metavar="COMMAND", help="print what the program answers to this command and the lines")
    forms.add_argument("--check", action="store_true", help="print what geoarrow_check says of each column")
    parser.add_argument("--json", action="store_true", help="with --check: a line of JSON for each column, and one for all")
    parser.add_argument("--program", metavar="PATH", help="with --ask and --check: another program to ask")
    try:
        words = parser.parse_args(arguments)
        if words.json and not words.check:
            parser.error("--json goes with --check")
        return words
    except SystemExit:
        _write("")  # what argparse has left in the buffers
        _write_error("")
        raise
    except OSError as error:  # from argparse, before Python 3.11
        raise _output_error(error) from None


def _run(words: argparse.Namespace) -> int:
    """Answers these words."""
    try:
        layers, names = layers_of_file(words.file, words.layer, words.all_layers)
        _tell_layers(layers, names, words)
        text, status = _checked(layers, words) if words.check else (_lines_or_answers(layers, words), 0)
    except (SchemaError, FileError) as error:
        if not words.check and words.ask is None:
            _tell_a_pipe()
        _tell(f"{words.file}: {error}")
        return FAILED
    except ProgramError as error:
        _tell(str(error))
        return FAILED
    _write(text)
    return status


def _lines_or_answers(layers: List[Layer], words: argparse.Namespace) -> str:
    found = "".join(line + "\n" for layer in layers for line in layer.lines)
    if words.ask is None:
        return found
    program = words.program or str(FIELDS)
    text, status = _answer(program, [words.ask], found)
    lines, answers = found.count("\n"), text.count("\n")
    if status != 0 or answers != lines:
        last = shown(text.split("\n")[-2]) if answers else "nothing"
        raise ProgramError(f"{program}: status {status}, {answers} answers to {lines} lines, last {last}")
    return text


def _checked(layers: List[Layer], words: argparse.Namespace) -> Tuple[str, int]:
    """What the program says of these layers, and the status."""
    program, options = words.program or str(CHECK), ["--infer", "--json", "-"] if words.json else ["--infer", "-"]
    said, worst, none = [], 0, NO_LINES if words.json else NO_COLUMNS
    for layer in layers:
        text, status = _answer(program, options, "".join(line + "\n" for line in layer.lines)) if layer.lines else (none, 0)
        if status not in (0, INVALID):
            raise ProgramError(f"{program}: status {status}")
        heads = words.all_layers and not words.json and layer.name is not None
        said.append((f"layer {shown(layer.name or '')}\n" if heads else "") + text)
        worst = max(worst, status)
    return ("" if words.json else "\n").join(said), worst


def _answer(program: str, words: Sequence[str], text: str) -> Tuple[str, int]:
    """What a program writes of this input, and its status."""
    try:
        ran = subprocess.run([program, *words], input=text.encode("utf-8"), stdout=subprocess.PIPE)
    except OSError as error:
        raise ProgramError(f"{program}: {error.strerror}") from None
    return ran.stdout.decode("utf-8", "replace"), ran.returncode


def _tell_layers(layers: List[Layer], names: List[str], words: argparse.Namespace) -> None:
    """Says which layers the lines are of, where that cannot be seen and the file has several."""
    if len(names) < 2 or words.layer is not None:
        return
    if not words.all_layers:
        listed = ", ".join(map(shown, names))
        _tell(f"{words.file}: its first layer of {len(names)} ({listed}); --layer NAME takes another, --all-layers all")
    elif not words.check:
        for layer in layers:
            _tell(f"{words.file}: {len(layer.lines)} lines of the layer {shown(layer.name or '')}")


def _tell_a_pipe() -> None:
    """Writes to a pipe, whose reader learns of no status, what is no line of a schema."""
    try:
        if stat.S_ISFIFO(os.fstat(sys.stdout.fileno()).st_mode):
            _write("error input\n")
    except (OSError, OutputError):
        pass  # nobody reads it


def _write(text: str) -> None:
    """Writes this text to standard output, and whatever stands in its buffer."""
    try:
        sys.stdout.buffer.write(text.encode("utf-8"))
        sys.stdout.flush()
    except OSError as error:
        raise _output_error(error) from None


def _output_error(error: OSError) -> OutputError:
    _drop(sys.stdout)
    return OutputError("" if isinstance(error, BrokenPipeError) else error.strerror or str(error))


def _tell(text: str) -> None:
    """Says this in one line on standard error."""
    _write_error(f"arrow_lines: {shown(text, 500)}\n")


def _write_error(text: str) -> None:
    """Writes this text to standard error, and whatever stands in its buffer, if it can be written."""
    try:
        sys.stderr.write(text)
        sys.stderr.flush()
    except OSError:
        _drop(sys.stderr)


def _drop(stream: TextIO) -> None:
    """Sends nowhere what is left in a stream's buffer, so that Python does not fail on it once more at its end."""
    os.dup2(os.open(os.devnull, os.O_WRONLY), stream.fileno())
