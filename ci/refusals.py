"""Runs of a program of which each has another allocation refused, by ci/refuse.c."""
import os
import shutil
import subprocess
from typing import NamedTuple

TOP = os.path.dirname(os.path.dirname(os.path.realpath(__file__)))


class Ran(NamedTuple):
    """How a run ended: its status (the signal below 0), and what it wrote."""

    status: int
    out: bytes
    err: bytes


def built(folder):
    """The library that refuses allocations, built in a folder; none where there is no C compiler."""
    compiler = shutil.which(os.environ.get("CC", "cc"))
    if not compiler:
        return None
    library = f"{folder}/refuse.so"
    subprocess.run([compiler, "-O2", "-shared", "-fPIC", "-o", library, f"{TOP}/ci/refuse.c"], check=True)
    return library


def bytes_of(path):
    with open(path, "rb") as file:
        return file.read()


def run(words, given, folder, environment):
    """A run in a folder, with files for the standard streams."""
    with open(f"{folder}/in", "wb") as file:
        file.write(given)
    for name in ("out", "err"):
        open(f"{folder}/{name}", "wb").close()
    flags = os.O_RDWR | os.O_APPEND
    streams = [os.open(f"{folder}/in", os.O_RDONLY), os.open(f"{folder}/out", flags), os.open(f"{folder}/err", flags)]
    try:
        ran = subprocess.run(words, stdin=streams[0], stdout=streams[1], stderr=streams[2], cwd=f"{folder}/here", env=environment, timeout=900)
    finally:
        for stream in streams:
            os.close(stream)
    return Ran(ran.returncode, bytes_of(f"{folder}/out"), bytes_of(f"{folder}/err"))


def told_of(folder):
    """What the runs came to, by the numbers of their allocations."""
    told = []
    for line in bytes_of(f"{folder}/log").decode().splitlines():
        number, status, signal = (int(word) for word in line.split())
        out, err = bytes_of(f"{folder}/out.{number}"), bytes_of(f"{folder}/err.{number}")
        told.append((number, Ran(-signal if signal else status, out, err)))
    return told


def sweep(library, words, given, folder, most=1000, every=1, how="", files=()):
    """A program's own run, and those in which each every-th of its first allocations was refused; as `how` says and all after it (ALL), or calls of devices in their
    place (CALLS). `files`: name and bytes of each that is there before the run."""
    shutil.rmtree(folder, ignore_errors=True)
    os.makedirs(f"{folder}/here")
    for name, text in files:
        with open(f"{folder}/here/{name}", "wb") as file:
            file.write(text)
    plain = {"PATH": "/usr/bin:/bin", "E": "1"}
    own = run(words, given, folder, plain)
    asked = {**plain, "LD_PRELOAD": library, "REFUSE_TO": folder, "REFUSE_MOST": str(most), "REFUSE_EVERY": str(every)}
    if how:
        asked[f"REFUSE_{how}"] = "1"
    again = run(words, given, folder, asked)
    if again != own:
        raise RuntimeError(f"{words} {given[:100]}: ends as {again} beside its refused runs, and as {own} alone")
    return own, told_of(folder)
