"""What the measures share: which programs they run, and what one run costs.

Callgrind counts each byte that `rep stosb` clears as an instruction. So the C library is told to clear memory by vector stores
while instructions are counted, and is left as it is while the time is taken.
"""
import os
import pathlib
import re
import resource
import subprocess

TOP = pathlib.Path(__file__).resolve().parent.parent
CLEARING = "glibc.cpu.x86_rep_stosb_threshold=1000000000"


def our_program():
    """Proves and builds our program where it is not built, and tells where it is."""
    subprocess.run([TOP / "bin/geoarrow_fields", "read"], stdin=subprocess.DEVNULL, check=True)
    return TOP / "crates/fields_program/out/fields_program"


def programs(ours, peer):
    """The programs by their labels: ours, and the peer where one is given."""
    found = {"ours": pathlib.Path(ours).resolve() if ours else our_program()}
    if peer:
        found["Rust"] = pathlib.Path(peer).resolve()
    return found


def write_corpus(path, corpus, lines, seed=1):
    """Writes that many lines of a corpus to a file."""
    with open(path, "wb") as file:
        subprocess.run([TOP / "bench/corpus", corpus, str(lines), str(seed)], stdout=file, check=True)


def processor_seconds(command, path):
    """The processor time of one run over the lines of a file."""
    before = resource.getrusage(resource.RUSAGE_CHILDREN)
    with open(path, "rb") as text:
        subprocess.run(command, stdin=text, stdout=subprocess.DEVNULL, check=True)
    after = resource.getrusage(resource.RUSAGE_CHILDREN)
    return after.ru_utime + after.ru_stime - before.ru_utime - before.ru_stime


def least_seconds(measured, runs):
    """The least processor time of each command over the lines of its file, by its label, of several rounds over all of them."""
    seconds = {label: [] for label in measured}
    for _ in range(runs):
        for label, (command, path) in measured.items():
            seconds[label].append(processor_seconds(command, path))
    return {label: min(some) for label, some in seconds.items()}


def said(tool, command, path, pattern, environment=None):
    """The number that a tool says of one run over the lines of a file, on standard error."""
    outputs = {"stdout": subprocess.DEVNULL, "stderr": subprocess.PIPE, "text": True}
    with open(path, "rb") as text:
        run = subprocess.run(tool + command, stdin=text, check=True, env=environment, **outputs)
    return int(re.search(pattern, run.stderr)[1].replace(",", ""))


def instructions(command, path=os.devnull):
    """How many instructions callgrind counts in one run."""
    tool = ["valgrind", "--tool=callgrind", f"--callgrind-out-file={os.devnull}"]
    return said(tool, command, path, r"Collected : (\d+)", os.environ | {"GLIBC_TUNABLES": CLEARING})


def requests(command, path):
    """How many requests for memory one run makes."""
    return said(["valgrind", "--tool=memcheck", "--leak-check=no"], command, path, r"total heap usage: ([\d,]+) allocs")


def peak_kibibytes(command, path):
    """The most memory that one run has at a time. A process of its own starts it, since a child counts its parent's memory."""
    return said(["/usr/bin/time", "--format=peak %M"], command, path, r"peak (\d+)")
