"""A program that runs above refuse.c: what refuse.c refuses it, and how the run ends."""

import os
import pathlib
import struct
import subprocess
import tempfile
import threading
from typing import NamedTuple

from shared import TOP

PROGRAM = TOP / "crates/plans/out/plans"

# A run takes a few thousandths of a second. This is when it is stopped, in seconds.
LONGEST = 60


class Ending(NamedTuple):
    """How a run ends: its status, or None if it didn't end by itself, and what is on standard output and standard error."""

    status: int | None
    output: bytes
    error: bytes

    def __str__(self):
        status = "it hasn't ended" if self.status is None else f"status {self.status}"
        text = (self.output + self.error).decode(errors="replace")
        return f"{status}, and on standard output and standard error\n{text}"


def unwritten(name):
    """How a run ends that can't write this file."""
    return Ending(3, b"", f'"{name}" can\'t be written\nfailed: write\n'.encode())


class Interposer:
    """Builds refuse.c in a folder of its own, and runs a program above it."""

    def __init__(self, program=PROGRAM, longest=LONGEST):
        self.program, self.longest = pathlib.Path(program), longest
        self.folder = tempfile.TemporaryDirectory()
        self.library = f"{self.folder.name}/refuse.so"
        self.threads = threading.local()

    def __enter__(self):
        source = pathlib.Path(__file__).with_name("refuse.c")
        flags = ["-std=c11", "-O2", "-Wall", "-Wextra", "-Werror", "-shared", "-fPIC"]
        subprocess.run(["cc", *flags, "-o", self.library, source], check=True)
        return self

    def __exit__(self, *_):
        self.folder.cleanup()

    def told(self):
        """The file in which runs of this thread say how many were refused."""
        if not hasattr(self.threads, "told"):
            self.threads.told = os.memfd_create("told")
        os.pwrite(self.threads.told, bytes(8), 0)
        return self.threads.told

    def run(self, document, words, environment, program=None):
        """Runs the program, or another one, on a document: how it ends, and how much it was refused."""
        told = self.told()
        with os.fdopen(os.memfd_create("document"), "wb") as given:
            given.write(document)
            given.flush()
            os.lseek(given.fileno(), 0, os.SEEK_SET)
            try:
                ran = subprocess.run(
                    [program or self.program, *words],
                    stdin=given,
                    capture_output=True,
                    timeout=self.longest,
                    pass_fds=(told,),
                    env={"LD_PRELOAD": self.library, "REFUSE_TOLD": str(told), **environment},
                )
                ending = Ending(ran.returncode, ran.stdout, ran.stderr)
            except subprocess.TimeoutExpired as late:
                ending = Ending(None, late.stdout or b"", late.stderr or b"")
        return ending, struct.unpack("q", os.pread(told, 8, 0))[0]
