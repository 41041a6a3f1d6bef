#!/usr/bin/env python3
"""A small emulator, shaped like AWS's Runtime Interface Emulator: one function named `function`, one port for callers,
one for the Runtime API and the Extensions API. For tests of tools/conformance.

usage: emulator.py ENVIRONMENTS TIMEOUT [FAULT | LIBERTY ..]
Of the function there are one or two environments. Once it listens it writes a line with its ports, that for callers and
one for each environment, and it runs until it is ended."""
import asyncio
import json
import re
import sys

from faults import FAULTS, LIBERTIES, OF_PAIRS
from life import CONTAINER, LIMIT, Life, Reply, refusal

INVOKE = "/2015-03-31/functions/function/invocations"
RUNTIME, EXTENSION = "/2018-06-01/runtime", "/2020-01-01/extension"
REPORTS, ERROR_TYPE = (f"{EXTENSION}/init/error", f"{EXTENSION}/exit/error"), "lambda-extension-function-error-type"
NOT_FOUND, INCOMPLETE = refusal(404, "NotFound"), refusal(400, "InvalidRequestFormat")


class Lives(list):
    """The environments of the function."""

    @property
    def faults(self):
        return self[0].faults

    @property
    def content_type(self):
        return self[0].content_type

    def leave(self, waiting):
        for life in self:
            life.leave(waiting)

    def free(self):
        """The one that takes the next invocation: one that waits for it, else one that can begin."""
        def rank(life):
            return (not (life.phase == "idle" and life.poll), life.phase == "busy" or bool(life.invocation))
        if "uses-one-environment" in self.faults:
            return self[0]
        return min(self, key=rank)


def of_caller(lives, method, path, headers, body):
    path, _, query = path.partition("?")
    is_known = path == INVOKE or "takes-any-function" in lives.faults and path.endswith("/invocations")
    if method != "POST" or not is_known:
        return NOT_FOUND
    if query not in ("", "Qualifier=$LATEST") and "takes-any-version" not in lives.faults:
        return refusal(404, "ResourceNotFoundException")
    if headers.get("x-amz-invocation-type", "RequestResponse") != "RequestResponse" and (
            "takes-any-type" not in lives.faults):
        return refusal(400, "InvalidParameterValueException")
    if len(body) > LIMIT and "takes-any-length" not in lives.faults:
        return refusal(413, "RequestTooLargeException")
    if body and not is_json(body) and "takes-any-payload" not in lives.faults:
        return refusal(400, "InvalidRequestContentException")
    return lives.free().invoke(body, headers.get("x-amzn-trace-id"), query == "Qualifier=$LATEST")


def is_json(body):
    try:
        json.loads(body)
    except ValueError:
        return False
    return True


def of_environment(life, method, path, headers, body):
    extension = headers.get("lambda-extension-identifier")
    if life.phase == "closing" and path != f"{EXTENSION}/event/next":
        if "hangs-up-at-end" in life.faults:
            raise ConnectionResetError
        if "answers-500-at-end" in life.faults:
            return CONTAINER
    if found := re.fullmatch(f"{RUNTIME}/invocation/([^/]+)/(response|error)", path):
        return (life.response if found[2] == "response" else life.failure)(found[1], body)
    if path == f"{EXTENSION}/register":
        return registered(life, headers, body)
    if path in REPORTS and ERROR_TYPE not in headers and "needs-no-error-type" not in life.faults:
        return INCOMPLETE
    routes = {("GET", f"{RUNTIME}/invocation/next"): life.next,
              ("POST", f"{RUNTIME}/init/error"): lambda: life.init_failure(body),
              ("GET", f"{EXTENSION}/event/next"): lambda: life.ext_next(extension),
              ("POST", f"{EXTENSION}/init/error"): lambda: life.ext_init_failure(extension, body),
              ("POST", f"{EXTENSION}/exit/error"): lambda: life.ext_exit_failure(extension, body)}
    return routes.get((method, path), lambda: NOT_FOUND)()


def registered(life, headers, body):
    try:
        events = json.loads(body)["events"]
    except (ValueError, KeyError):
        return INCOMPLETE
    name, asked = headers.get("lambda-extension-name"), headers.get("lambda-extension-accept-feature", "")
    is_known = "registers-for-anything" in life.faults or {"INVOKE", "SHUTDOWN"}.issuperset(events)
    return life.register(name, events, "accountId" in asked) if name and is_known else INCOMPLETE


async def answer(life, waiting, reader):
    """The reply that comes in the end. A poll whose connection ends before that waits no more."""
    while not (await asyncio.wait({waiting}, timeout=0.01))[0]:
        if reader.at_eof():
            life.leave(waiting)
            raise ConnectionResetError
    return waiting.result()


async def serve(life, routes, reader, writer):
    """The requests of one connection, one after the other."""
    try:
        while True:
            head = (await reader.readuntil(b"\r\n\r\n")).decode("latin-1").split("\r\n")
            method, path, _ = head[0].split(" ")
            headers = {name.lower(): value.strip()
                       for name, _, value in (line.partition(":") for line in head[1:] if line)}
            body = await reader.readexactly(int(headers.get("content-length", 0)))
            reply = routes(life, method, path, headers, body)
            reply = await answer(life, reply, reader) if asyncio.isfuture(reply) else reply
            if reply.status >= 400 and "types-by-number" in life.faults:
                reply = Reply(reply.status, {**json.loads(reply.body), "errorType": 17})
            length = len(reply.body.decode("utf-8", "replace") if "counts-characters" in life.faults else reply.body)
            lines = [f"HTTP/1.1 {reply.status} Status", f"Content-Length: {length}",
                     f"Content-Type: {life.content_type}",
                     *(f"{name}: {value}" for name, value in reply.headers.items())]
            writer.write("\r\n".join(lines).encode() + b"\r\n\r\n" + reply.body)
            await writer.drain()
    except (asyncio.IncompleteReadError, ConnectionError):
        pass
    finally:
        writer.close()


async def main(environments, timeout, *faults):
    if unknown := set(faults).difference(FAULTS, OF_PAIRS, LIBERTIES):
        sys.exit(f"no such fault: {' '.join(unknown)}")
    lives = Lives(Life(float(timeout), faults) for _ in range(int(environments)))
    for life in lives:
        life.all = lives
    servers = [await asyncio.start_server(
        lambda reader, writer, life=life, routes=routes: serve(life, routes, reader, writer), "127.0.0.1", 0)
        for life, routes in ((lives, of_caller), *((life, of_environment) for life in lives))]
    print("listening", *(server.sockets[0].getsockname()[1] for server in servers), flush=True)
    await asyncio.gather(*(server.serve_forever() for server in servers))


if __name__ == "__main__":
    asyncio.run(main(*sys.argv[1:]))
