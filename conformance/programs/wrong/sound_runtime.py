#!/usr/bin/env python3
"""A runtime that does all that lambda_local conformance checks, in methods that the wrong ones override one by one."""
import importlib
import json
import os
import sys
import time
from types import SimpleNamespace

from connection import Client

PATH = "/2018-06-01/runtime/"


class Parts(list):
    """Texts that are streamed."""


class Runtime(Client):
    handler = None
    next_path = PATH + "invocation/next"

    # -- the life of the process

    def run(self):
        self.begin()
        try:
            self.load()
        except Exception as fault:
            self.init_fails(fault)
        while True:
            self.one_invocation()

    def begin(self):
        """Before anything else."""

    def load(self):
        sys.path.insert(0, os.environ["LAMBDA_TASK_ROOT"])
        module, _, name = os.environ["_HANDLER"].rpartition(".")
        self.handler = getattr(importlib.import_module(module), name)

    def init_fails(self, fault):
        self.ask("POST", "init/error", self.dump(self.report(fault)), self.error_headers(fault))
        sys.exit(1)

    def at_500(self, answer):
        sys.exit(1)

    # -- an invocation

    def one_invocation(self):
        answer = self.next()
        if answer.status != 200:
            return self.next_refused(answer)
        request = answer.headers["Lambda-Runtime-Aws-Request-Id"]
        try:
            output = self.call(self.read(answer.body), answer.headers)
        except Exception as fault:
            return self.fails(request, fault)
        return self.respond(request, output)

    def next(self):
        return self.ask("GET", "invocation/next")

    def next_refused(self, answer):
        if answer.status == 500:
            self.at_500(answer)
        time.sleep(0.05)

    def read(self, payload):
        return json.loads(payload)

    def call(self, event, headers):
        os.environ["_X_AMZN_TRACE_ID"] = headers["Lambda-Runtime-Trace-Id"] or ""
        if isinstance(event, dict) and event.get("do") == "stream":
            return Parts(event["value"])
        return self.handler(event, self.context(headers))

    def context(self, headers):
        deadline = int(headers["Lambda-Runtime-Deadline-Ms"])
        return SimpleNamespace(aws_request_id=headers["Lambda-Runtime-Aws-Request-Id"],
                               invoked_function_arn=headers["Lambda-Runtime-Invoked-Function-Arn"],
                               get_remaining_time_in_millis=lambda: self.remaining(deadline))

    def remaining(self, deadline):
        return max(0, deadline - int(1000 * time.time()))

    def respond(self, request, output):
        if isinstance(output, Parts):
            return self.stream(request, output)
        return self.sent(self.ask("POST", f"invocation/{request}/response", self.dump(output)), request, output)

    def stream(self, request, parts):
        answer = self.ask("POST", f"invocation/{request}/response", [part.encode() for part in parts],
                          {"Lambda-Runtime-Function-Response-Mode": "streaming"})
        self.sent(answer, request, parts)

    def sent(self, answer, request, output):
        """A response or an error was sent, and answered."""
        if answer.status == 500:
            self.at_500(answer)

    def dump(self, output):
        return json.dumps(output, ensure_ascii=False).encode()

    def fails(self, request, fault):
        answer = self.ask("POST", f"invocation/{request}/error", self.dump(self.report(fault)),
                          self.error_headers(fault))
        self.sent(answer, request, fault)

    def report(self, fault):
        import traceback  # (few invocations fail, and it takes long to import)
        return {"errorMessage": str(fault), "errorType": type(fault).__name__,
                "stackTrace": traceback.format_tb(fault.__traceback__)}

    def error_headers(self, fault):
        return {"Lambda-Runtime-Function-Error-Type": f"Runtime.{type(fault).__name__}"}

    def ask(self, method, path, body=None, headers=None):
        return super().ask(method, PATH + path, body, headers)


if __name__ == "__main__":
    Runtime().run()
