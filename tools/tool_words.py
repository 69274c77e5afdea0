"""What the tools for users share: their words, calls of the program, and how faults are told."""
import argparse
import os
import subprocess
import sys

from audits import AuditFault
from job_files import FileFault, read_requests


class ToolFault(Exception):
    """Why a tool can't do what it is asked for."""


def words_of(name, doc):
    """The reader of a tool's words. Its page of help is `doc`, whose third line is the usage."""
    head, _, usage, *rest = doc.splitlines()
    return argparse.ArgumentParser(
        prog=f"tools/{name}",
        usage=usage.strip(),
        description="\n".join([head, *rest]).strip(),
        formatter_class=argparse.RawDescriptionHelpFormatter,
    )


class Given:
    """A file under the name that was given. What only this process can read is copied once."""

    def __init__(self, name, copy):
        self.name = name
        self.place = name
        # A pipe is read once, and the descriptors of `<(..)` aren't open in the program.
        if name.exists() and (name.parts[:2] == ("/", "dev") or not name.is_file()):
            copy.write_bytes(name.read_bytes())
            self.place = copy

    def __fspath__(self):
        return os.fspath(self.place)

    def __str__(self):
        return str(self.name)

    def is_copy(self):
        return self.place != self.name


def lines_of(fries, *words):
    """The lines that a command prints. Statuses 0 and 8 are those of commands that are done."""
    copies = [word for word in words if isinstance(word, Given) and word.is_copy()]
    # `check` is the first call. If the program is built for it, that is told there at once.
    errors = None if words[0] == "check" and not copies else subprocess.PIPE
    how = {"stdout": subprocess.PIPE, "stderr": errors, "universal_newlines": True}
    done = subprocess.run([str(fries), *map(os.fspath, words)], check=False, **how)
    if done.returncode in (0, 8):
        return done.stdout.splitlines()
    said = done.stderr or ""
    for copy in copies:
        said = said.replace(os.fspath(copy), str(copy))
    raise ToolFault(f"fries {words[0]}: {done.stdout.strip()}\n{said.strip()}".strip())


def plan_of(fries, job, path):
    """The words of each line that `fries plan` prints."""
    return [line.split() for line in lines_of(fries, "plan", job, path)]


def accepted(fries, job, path):
    """The requests of a file that are accepted, in order."""
    requests = read_requests(path)
    refused = {int(words[1]) for words in plan_of(fries, job, path) if words[0] == "refused"}
    return [request for request in requests if request.place not in refused]


def run(name, main):
    """Runs a tool. What is wrong with its files is told in a line, with status 1."""
    try:
        main()
        sys.stdout.flush()
    except (AuditFault, FileFault, ToolFault) as fault:
        sys.exit(f"{name}: {fault}")
    except BrokenPipeError:
        # Nobody reads on.
        os.dup2(os.open(os.devnull, os.O_WRONLY), sys.stdout.fileno())
        sys.exit(1)
    except OSError as fault:
        told = f"{fault.filename}: {fault.strerror}" if fault.filename else fault
        sys.exit(f"{name}: {told}")


def use_utf8():
    """Writes UTF-8 whatever the locale is, and bytes of audits that are no text as they were."""
    sys.stdout.reconfigure(encoding="utf-8", errors="surrogateescape")
