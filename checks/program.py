"""Runs of a program, each in an empty folder of its own."""
import copy
import itertools
import os
import pwd
import shutil
import signal
import subprocess
import tempfile
from dataclasses import dataclass

from case import Wrong

NUMBERS = itertools.count(1)


@dataclass
class Run:
    """What came of a run."""
    status: int
    text: bytes
    files: dict  # those that the run made or changed
    errors: bytes  # what it wrote on the standard error

    def told(self):
        """The lines, divided by ` / `, and the status in square brackets if it is not 0."""
        lines = self.text.decode("utf-8", "replace").removesuffix("\n")
        lines = " / ".join(line.removesuffix("\r") for line in lines.split("\n"))
        if self.status == 0:
            return lines
        return f"{lines} [{self.status}]" if lines else f"[{self.status}]"


class Room:
    """A temporary folder, in which the runs of a program have theirs."""

    def __init__(self):
        self.path = tempfile.mkdtemp(prefix="croquet-checks-")
        os.chmod(self.path, 0o755)

    def become_nobody(self):
        """Root gives the room to nobody, and is nobody from then on.

        A child that changes its user costs a copy of this process, and a child of nobody does not.
        """
        if os.geteuid() != 0:
            return
        user = pwd.getpwnam("nobody")
        for folder, _, files in os.walk(self.path):
            for path in [folder, *(os.path.join(folder, file) for file in files)]:
                os.chown(path, user.pw_uid, user.pw_gid)
        os.setgroups([])
        os.setgid(user.pw_gid)
        os.setuid(user.pw_uid)

    def remove(self):
        shutil.rmtree(self.path, ignore_errors=True)


class Program:
    """An executable, of which a copy lies where nobody may run it. A launcher runs it, where there is one."""

    def __init__(self, room, source, patience):
        self.source, self.patience, self.launcher = source, patience, []
        self.folder = tempfile.mkdtemp(dir=room.path)
        os.chmod(self.folder, 0o755)
        self.path = os.path.join(self.folder, "croquet")
        shutil.copyfile(source, self.path)
        os.chmod(self.path, 0o755)

    def start(self, words, files=None, errors=b"", is_quiet=True, stdin=subprocess.DEVNULL):
        """Starts a run with these words, and with these files in its folder. It has to write these errors, or any if they are None.
        One that is not quiet says its hints too."""
        return Started(self, words, files or {}, errors, is_quiet, stdin)

    def run(self, words, files=None, errors=b"", is_quiet=True):
        """Runs to the end."""
        return self.start(words, files, errors, is_quiet).end()

    def launched_by(self, *launcher):
        """The same program, run by these words."""
        other = copy.copy(self)
        other.launcher = launcher
        return other


class Started:
    """A run that goes on."""

    def __init__(self, program, words, files, errors, is_quiet, stdin):
        self.given, self.errors, self.patience = files, errors, program.patience
        self.folder = os.path.join(program.folder, str(next(NUMBERS)))
        os.mkdir(self.folder)
        for name, content in files.items():
            with open(os.path.join(self.folder, name), "wb") as file:
                file.write(content)
        quiet = {"CROQUET_QUIET": "1"} if is_quiet else {}
        self.process = subprocess.Popen(
            [*program.launcher, program.path, *words], cwd=self.folder, env={"PATH": os.environ.get("PATH", ""), **quiet},
            stdin=stdin, stdout=subprocess.PIPE, stderr=subprocess.PIPE)

    def kill(self):
        """Ends it, whatever it has written on the standard error."""
        self.errors = None
        self.process.send_signal(signal.SIGKILL)

    def end(self):
        """Waits for the end, and looks at what is left."""
        try:
            text, errors = self.process.communicate(timeout=self.patience)
        except subprocess.TimeoutExpired:
            self.kill()
            self.process.communicate()
            raise Wrong("an end", f"none in {self.patience} seconds") from None
        finally:
            left = self.left()
            shutil.rmtree(self.folder, ignore_errors=True)
        if self.errors not in (None, errors):
            raise Wrong(f"{self.errors!r} on the standard error", errors.decode("utf-8", "replace"))
        return Run(self.process.returncode, text, left, errors)

    def left(self):
        """The files that were not given so."""
        files = {}
        for name in os.listdir(self.folder):
            with open(os.path.join(self.folder, name), "rb") as file:
                content = file.read()
            if self.given.get(name) != content:
                files[name] = content
        for name in self.given:
            if not os.path.exists(os.path.join(self.folder, name)):
                files[name] = None
        return files
