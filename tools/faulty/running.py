"""What tools/faults and tools/fuzz share: the tally, the pages of tools/test-programs, and runs in which chosen calls fail."""

import importlib.machinery
import importlib.util
import os
import shutil
import struct
import subprocess
import sys
import tempfile
import time

FOLDER = os.path.dirname(os.path.realpath(__file__))
TOOLS = os.path.dirname(FOLDER)
TOP = os.path.dirname(TOOLS)
NOTE = struct.Struct("5Q")  # struct note of faulty.c
PATIENCE = 30  # seconds for one run


def load_programs():
    """The module of tools/test-programs, which has pages with their documents and the lines of standard error."""
    sys.dont_write_bytecode = True
    loader = importlib.machinery.SourceFileLoader("programs", os.path.join(TOOLS, "test-programs"))
    module = importlib.util.module_from_spec(importlib.util.spec_from_loader("programs", loader))
    loader.exec_module(module)
    return module


def library(name, folder):
    """Builds the library to be preloaded; its path, or None where there is no C compiler."""
    if not shutil.which("cc"):
        return None
    path = os.path.join(folder, f"{name}.so")
    source = os.path.join(FOLDER, f"{name}.c")
    subprocess.run(["cc", "-std=c11", "-O2", "-Wall", "-Wextra", "-Werror", "-shared", "-fPIC", "-o", path, source], check=True)
    return path


class Tally:
    """What passed and what failed, with a line for each failure and each table, and now and then one that says how far it is."""

    def __init__(self, name):
        self.name = name
        self.passed = self.failed = self.skipped = 0
        self.told_at = time.monotonic()

    def row(self, shows, faults):
        """Counts a case, and tells its faults where it has any."""
        if faults:
            self.failed += 1
            self.tell(f"{shows}: FAILED: {'; '.join(faults)}")
        else:
            self.passed += 1
        if time.monotonic() - self.told_at > 5:
            self.tell(f"{shows} .. {self.passed} passed, {self.failed} failed so far")

    def table(self, function, *given):
        """Runs a table of cases; one that cannot be run fails."""
        try:
            function(self, *given)
        except (OSError, subprocess.SubprocessError) as fault:
            self.row(function.__name__.replace("_", " "), [str(fault)])

    def skip(self, shows, reason):
        self.skipped += 1
        self.tell(f"{shows}: skipped, {reason}")

    def tell(self, line):
        self.told_at = time.monotonic()
        print(f"{self.name}: {line}", flush=True)

    def end(self):
        """Tells the last line, and answers the exit status."""
        print(f"{self.passed} passed, {self.failed} failed" + (f", {self.skipped} skipped" if self.skipped else ""))
        return 0 if self.failed == 0 else 1


class Done:
    """How a run ended, what it wrote, and which of its calls were counted."""

    def __init__(self, done, note):
        self.status, self.out, self.err = done.returncode, done.stdout, done.stderr
        self.memory, self.reads, self.writes, self.tells, self.refused = note


class Faulty:
    """Runs programs with the library before the C library."""

    def __init__(self, path):
        self.path = path

    def run(self, command, given, **plan):
        """The run on these bytes; the plan names what faulty.c knows: call, at, count, error, piece."""
        with tempfile.TemporaryFile(buffering=0) as note:
            note.write(bytes(NOTE.size))
            told = {f"FAULTY_{name.upper()}": str(value) for name, value in plan.items()}
            settings = {**os.environ, **told, "LD_PRELOAD": self.path, "FAULTY_NOTE": str(note.fileno())}
            try:
                done = subprocess.run(
                    command, input=given, capture_output=True, env=settings, pass_fds=[note.fileno()], timeout=PATIENCE, check=False
                )
            except subprocess.TimeoutExpired:
                done = subprocess.CompletedProcess(command, f"none within {PATIENCE} s", b"", b"")
            return Done(done, NOTE.unpack(os.pread(note.fileno(), NOTE.size, 0)))
