"""Runs scripts through a program that reads docs/TRACE.md's records."""

import re
import subprocess

from .messages import handed_out, read_back

# behind a script; a token may hold an empty line too
END = re.compile(rb"\n\n(?=OP |\Z)")


class Program:
    def __init__(self, *command):
        self.command = command

    def mode(self, mode):
        """the oracle in another mode"""
        return Program(self.command[0], mode)

    def raw(self, data):
        """what the program writes; one that fails has written less"""
        return subprocess.run(self.command, input=data, stdout=subprocess.PIPE, stderr=subprocess.DEVNULL, check=False).stdout

    def words(self, lines):
        """what the program writes for each line"""
        return self.raw("".join(line + "\n" for line in lines).encode()).split(b"\n")[:-1]

    def run(self, scripts):
        """the output for each script, without the empty line behind it; nothing where the program failed before"""
        found = END.split(self.raw(b"".join([s.data + b"EN" for s in scripts])))
        return (found + [b""] * len(scripts))[: len(scripts)]


class Crate(Program):
    """The oracle, with the request that it is to be in place of a written message."""

    name = "the crate"

    def run(self, scripts):
        return [handed_out(output) for output in super().run(scripts)]


class Port(Program):
    """The program trace, with what the crate's decoder reads back in place of a written message."""

    name = "the port"

    def __init__(self, oracle, *command):
        super().__init__(*command)
        self.oracle = oracle

    def run(self, scripts):
        return read_back(super().run(scripts), self.oracle)
