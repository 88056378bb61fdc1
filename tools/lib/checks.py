"""What the scripts beside this one share that check the repository: how they count, calls on a terminal, the rows of crates.txt, and
the second reading as a module."""
import contextlib
import importlib.machinery
import importlib.util
import os
import pty
import subprocess
import sys

import rows


class Check:
    """Counts what holds, and tells each fault under the name of the script."""

    # Whether the script ends where the first fault was told.
    ends_at_first = False

    def __init__(self, script):
        self.script = script
        self.passed = self.failed = 0

    def that(self, holds, fault):
        self.passed += bool(holds)
        if not holds:
            self.failed += 1
            print(f"{self.script}: {fault}")
            if self.ends_at_first:
                sys.exit(self.end())

    def end(self):
        """Tells the counts, and gives the exit number."""
        print(f"{self.passed} passed, {self.failed} failed")
        return 1 if self.failed else 0


def on_terminal(call, folder, environment, given=""):
    """The status, the output and the errors of a call whose standard error is a terminal."""
    ours, theirs = pty.openpty()
    with os.fdopen(ours, "rb", buffering=0) as terminal:
        with os.fdopen(theirs, "wb", buffering=0) as errors:
            done = subprocess.run(
                call, cwd=folder, input=given.encode(), env=environment, stdout=subprocess.PIPE, stderr=errors, check=False
            )
        said = b""
        with contextlib.suppress(OSError):  # what the system answers at the end of what stands there
            while part := terminal.read(4096):
                said += part
    return done.returncode, done.stdout.decode(), said.decode().replace("\r\n", "\n")


def crates():
    """The crates of crates.txt in its order, each with its libraries."""
    lines = [line.split("#")[0] for line in (rows.TOP / "crates.txt").read_text(encoding="utf-8").splitlines()]
    halves = [line.split(":") for line in lines if line.strip()]
    return {crate.split()[0]: libraries.split() for crate, libraries in halves}


def second_reading():
    """The module that tools/second-reading is."""
    loader = importlib.machinery.SourceFileLoader("second_reading", str(rows.TOP / "tools/second-reading"))
    module = importlib.util.module_from_spec(importlib.util.spec_from_loader("second_reading", loader))
    loader.exec_module(module)
    return module


def trials(every, chosen, usage, run):
    """Runs trials, functions that are named try_NAME: those whose names are chosen, or all. With the word --first among those
    the first fault ends them."""
    Check.ends_at_first = "--first" in chosen
    chosen = [name for name in chosen if name != "--first"]
    named = {trial.__name__.removeprefix("try_"): trial for trial in every}
    if not set(chosen) <= set(named):
        sys.exit(usage)
    for name in chosen or named:
        run(named[name])
