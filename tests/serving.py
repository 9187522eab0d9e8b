"""What the tests of `cpmhost serve` share: whether the program has the command, and a host over its pipes that is asked line by line."""

import contextlib
import functools
import json
import os
import subprocess
import sys

import lib

try:
    import jsonschema
except ImportError:
    jsonschema = None

sys.path.insert(0, os.path.join(lib.ROOT, "clients", "python"))


def has_serve():
    """Whether the program serves. One without the command says that there is no such command; else this ends at once, since the input does."""
    return lib.run("serve", given=b"").status == 0


def skipped():
    """Says that nothing is tested, where the program doesn't serve."""
    if has_serve():
        return False
    lib.skip("the served host", f"{lib.CPMHOST} has no command serve")
    return True


@functools.cache
def judge(kind):
    """What judges by docs/protocol.schema.json whether a value is a `request`, `one` of `many`, or a `reply`; nothing without Python's module jsonschema. A whole
    number has neither a point nor an exponent, which no schema can say."""
    if jsonschema is None:
        return None
    with open(os.path.join(lib.ROOT, "docs", "protocol.schema.json"), encoding="utf-8") as file:
        schema = json.load(file)
    usual = jsonschema.Draft202012Validator
    types = usual.TYPE_CHECKER.redefine("integer", lambda _, value: type(value) is int)
    return jsonschema.validators.extend(usual, type_checker=types)({**schema, "anyOf": [{"$ref": f"#/$defs/{kind}"}]})


class Lines:
    """A host that is asked line by line, as bytes."""

    def __init__(self, *words):
        self.process = subprocess.Popen([lib.CPMHOST, "serve", *words], stdin=subprocess.PIPE, stdout=subprocess.PIPE, stderr=subprocess.PIPE)

    def ask(self, line):
        """The reply to a line, with its LF; nothing where the host has ended."""
        try:
            self.process.stdin.write(line + b"\n")
            self.process.stdin.flush()
        except BrokenPipeError:
            return b""
        return self.process.stdout.readline()

    def end(self):
        """What it says on standard error, and its status, once the input has ended."""
        with contextlib.suppress(BrokenPipeError):
            self.process.stdin.close()
        self.process.stdin = None
        out, error = self.process.communicate(timeout=lib.SECONDS)
        lib.check(out == b"", f"a reply to no line: {out[:80]!r}")
        return error, self.process.returncode
