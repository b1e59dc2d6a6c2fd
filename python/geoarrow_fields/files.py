"""Reports of many files: what a worker calls, so that it need only have the package.

    reports(paths)         a report for each file; what is wrong with one is said in its report, and never raised
    paths_of(words)        the files that paths and folders name

A report is a dict that JSON can hold: the `file`, its number of `columns`, its `geometries`, the names of its `invalid` columns and what is found in words, of its
columns, with why they are invalid, and behind these of the file, the `errors` apart from the `warnings`, before all of them why lines are no columns; and an `error` where it cannot be read, else None.
"""
import dataclasses
import os
from typing import Any, Dict, Iterable, Iterator, List, Tuple

import geoarrow_fields

Report = Dict[str, Any]


def reports(paths: Iterable[str], infer: bool = False) -> List[Report]:
    """A report for each path."""
    return [report(path, infer) for path in paths]


def report(path: str, infer: bool = False) -> Report:
    """What the columns of a file hold, or why it cannot be read."""
    try:
        columns = geoarrow_fields.check(path, infer)
    except Exception as error:  # whatever it is, the next file is checked
        return failed(path, error)
    geometries = [f"{one.name}: {one.type}" for one in columns if one.state in ("geometry", "inferred")]
    invalid = [one.name for one in columns if one.is_invalid]
    of_columns = [dataclasses.replace(found, column=one.name) for one in columns for found in one.findings]
    found = [*of_columns, *columns.findings]
    errors = [*columns.bad_words(), *(str(one) for one in found if one.is_error)]
    warnings = [str(one) for one in found if not one.is_error]
    return {
        "file": path, "columns": len(columns), "geometries": geometries, "invalid": invalid, "errors": errors, "warnings": warnings, "error": None}


def failed(path: str, error: BaseException) -> Report:
    """The report of a file that was not read."""
    said = getattr(error, "strerror", None) or str(error) or type(error).__name__
    return {"file": path, "columns": 0, "geometries": [], "invalid": [], "errors": [], "warnings": [], "error": said}


def paths_of(words: Iterable[str], endings: Tuple[str, ...] = ("",)) -> Iterator[str]:
    """The files that words name: a file as it is named, and of a folder all files in it whose names have one of the endings, in the order of the bytes of
    their paths; among them the folders that the system does not list.

    In a folder, files and folders whose names begin with `_` or `.` are left out, as Spark, Hive and pyarrow.dataset leave them out: those are marks
    and checksums, as `_SUCCESS`, `_delta_log` and `.part-0.parquet.crc`, and no data. A file of 0 bytes is not left out: it cannot be read, since it is most
    often one whose upload broke off.
    """
    for word in words:
        if word != "-" and os.path.isdir(word):
            yield from _paths_in(word, endings)
        else:
            yield word


def _paths_in(top: str, endings: Tuple[str, ...]) -> Iterator[str]:
    found: List[str] = []
    for folder, folders, names in os.walk(top, onerror=lambda error: found.append(error.filename)):
        folders[:] = filter(_is_data, folders)
        found += [os.path.join(folder, name) for name in filter(_is_data, names) if name.endswith(endings)]
    return iter(sorted(found, key=os.fsencode))


def _is_data(name: str) -> bool:
    return not name.startswith(("_", "."))
