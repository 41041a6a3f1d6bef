#!/usr/bin/env python3
"""Runtimes in the shapes of clients whose languages are not on this machine: what they send is what those send, and in
the same order. A class is named after its client, and `noted` are the checks on which it has a NOTE or a SHOULD.

usage: shapes.py SHAPE   (in a folder with the kit's handlers, as the kit starts a runtime)"""
import json
import os
import sys

sys.path.insert(0, os.path.join(os.path.dirname(os.path.dirname(os.path.realpath(__file__))), "wrong"))
from sound_runtime import Parts, Runtime  # noqa: E402

PRELUDE = json.dumps({"statusCode": 200, "headers": {}, "cookies": []}).encode() + b"\0" * 8


class TooDeep(Exception):
    pass


def depth_of(text):
    """How many lists and objects of a JSON text are inside one another."""
    deepest = depth = 0
    inside = escaped = False
    for letter in text.decode():
        if inside:
            escaped, inside = letter == "\\" and not escaped, letter != '"' or escaped
        elif letter == '"':
            inside = True
        elif letter in "[{":
            depth += 1
            deepest = max(deepest, depth)
        elif letter in "]}":
            depth -= 1
    return deepest


class Rust(Runtime):
    """lambda_runtime: types with their crates, no stack, a header that is the same for all, and a prelude before each
    stream."""

    def report(self, fault):
        return {"errorType": f"bootstrap::{type(fault).__name__}", "errorMessage": str(fault)}

    def error_headers(self, fault):
        return {"lambda-runtime-function-error-type": "unhandled"}

    def stream(self, request, parts):
        answer = self.ask("POST", f"invocation/{request}/response", [PRELUDE, *(part.encode() for part in parts)],
                          {"Lambda-Runtime-Function-Response-Mode": "streaming",
                           "Content-Type": "application/vnd.awslambda.http-integration-response"})
        self.sent(answer, request, parts)


class RustWithoutPool(Rust):
    """The same with a connection for each request."""

    def ask(self, *arguments, **named):
        self.connection.close()
        return super().ask(*arguments, **named)


class Ruby(Runtime):
    """The Ruby client: types as Function<Type>, 100 levels of JSON, a connection for each response."""
    levels = 100

    def read(self, payload):
        if depth_of(payload) > self.levels:
            raise TooDeep(f"nesting of {self.levels + 1} is too deep")
        return super().read(payload)

    def report(self, fault):
        return {**super().report(fault), "errorType": f"Function<{type(fault).__name__}>"}

    def error_headers(self, fault):
        return {"Lambda-Runtime-Function-Error-Type": "Function<UserException>"}

    def respond(self, request, output):
        self.connection.close()
        return super().respond(request, "".join(output) if isinstance(output, Parts) else output)


class DotNet(Ruby):
    """RuntimeSupport: 64 levels, a cause, the type as the header has it too."""
    levels = 64

    def report(self, fault):
        return {**Runtime.report(self, fault), "cause": None}

    def error_headers(self, fault):
        return {"Lambda-Runtime-Function-Error-Type": type(fault).__name__,
                "Lambda-Runtime-Function-XRay-Error-Cause": "{}"}


class GoPanic(Runtime):
    """aws-lambda-go after a panic: a stack of objects, and then the process ends, with an error on standard error."""

    def report(self, fault):
        return {"errorMessage": str(fault), "errorType": type(fault).__name__,
                "stackTrace": [{"path": "main.go", "line": 12, "label": "main.handler"}]}

    def sent(self, answer, request, output):
        super().sent(answer, request, output)
        if isinstance(output, Exception):
            sys.exit("calling the handler function resulted in a panic, the process should exit")


class KnowsNoOptions(Runtime):
    """In a language whose version does not start with options that it does not know."""

    def begin(self):
        if "NODE_OPTIONS" in os.environ:
            sys.exit("--max-semi-space-size=1 is not allowed in NODE_OPTIONS")


class Native(Runtime):
    """awslambdaric: a native client whose JSON is ASCII, and which asks for a new connection when one has ended."""

    def dump(self, output):
        return json.dumps(output).encode()

    def error_headers(self, fault):
        return {"Lambda-Runtime-Function-Error-Type": type(fault).__name__,
                "Lambda-Runtime-Function-XRay-Error-Cause": "{}"}


class Bref(Native):
    """PHP with curl: one connection, each answer of which is read to its end."""

    def report(self, fault):
        return {**super().report(fault), "stackTrace": [f"#0 {type(fault).__name__}"], "stack": []}


class Ignores500(Runtime):
    """Clients that look at the status of Next alone."""

    def sent(self, answer, request, output):
        pass


SHAPES = {name: shape for name, shape in list(globals().items())
          if isinstance(shape, type) and issubclass(shape, Runtime) and shape is not Runtime}

if __name__ == "__main__":
    SHAPES[sys.argv[1]]().run()
