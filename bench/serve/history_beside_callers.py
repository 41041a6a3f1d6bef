#!/usr/bin/env python3
"""Measures how long a caller of 100 B waits for its answers, alone and while readers get `/_local/history` in a loop:
p50, p99 and the longest. First, it fills the history with N entries of 6 MiB: invocations whose payload a runtime
sends back. Caller, runtimes and readers are separate processes. Needs Linux, and the proved program
(./lambda_local build) or the path of another one. `--path` names what else is read: `/_local/trace`, or
`/_local/trace?follow=1`, which each reader reads once, and to its end.

usage: bench/serve/history_beside_callers.py [--program PROGRAM] [--entries N] [--readers N] [--seconds S]
                                             [--path PATH]"""
import argparse
import http.client
import multiprocessing
import os
import sys
import time

sys.dont_write_bytecode = True
from services import Kind, Service, Trouble

ROOT = os.path.dirname(os.path.dirname(os.path.dirname(os.path.abspath(__file__))))
BUILT = os.path.join(ROOT, "crates", "lambda_local", "out", "lambda_local")
NEXT = "/2018-06-01/runtime/invocation/next"
INVOKE = "/2015-03-31/functions/f/invocations"
ENVIRONMENTS = 4  # so that the only caller never waits for a runtime to ask again
SMALL = b'"' + 98 * b"x" + b'"'
LARGE = b'"' + b"some words " * ((6_291_456 - 2) // 11) + b'"'


def connect(port, patience=60):
    return http.client.HTTPConnection("127.0.0.1", port, timeout=patience)


def ask(connection, method, path, body=None):
    connection.request(method, path, body)
    answer = connection.getresponse()
    text = answer.read()
    if answer.status not in (200, 202):
        raise Trouble(f"{method} {path} was answered {answer.status}: {text[:200]}")
    return answer, text


def send_back(port):
    """A runtime that answers each invocation with its payload."""
    connection = connect(port, None)
    while True:
        answer, payload = ask(connection, "GET", NEXT)
        name = answer.headers["Lambda-Runtime-Aws-Request-Id"]
        ask(connection, "POST", f"/2018-06-01/runtime/invocation/{name}/response", payload)


def read_again(port, path, count):
    """Reads what is there again and again, and counts its bytes."""
    into = bytearray(1 << 20)
    while True:
        connection = connect(port)
        connection.request("GET", path)
        answer = connection.getresponse()
        while got := answer.readinto1(into):
            with count.get_lock():
                count.value += got
        connection.close()


def call(port, seconds, waits):
    """Invokes with a small payload for this long: sends how long each call took, in milliseconds."""
    connection = connect(port)
    took = []
    end = time.monotonic() + seconds
    while time.monotonic() < end:
        start = time.monotonic()
        ask(connection, "POST", INVOKE, SMALL)
        took.append(1000 * (time.monotonic() - start))
    waits.send(sorted(took))


class Processes:
    """Processes of this program's functions, which end with its block."""

    def __enter__(self):
        self.begun = []
        return self

    def begin(self, work, *arguments):
        process = multiprocessing.Process(target=work, args=arguments, daemon=True)
        process.start()
        self.begun.append(process)
        return process

    def __exit__(self, *_):
        for it in self.begun:
            it.kill()
            it.join()


def measure(name, processes, port, seconds):
    here, there = multiprocessing.Pipe()
    processes.begin(call, port, seconds, there)
    if not here.poll(seconds + 60):
        raise Trouble(f"a caller had not ended, {name}")
    took = here.recv()
    p50, p99 = took[len(took) // 2], took[len(took) * 99 // 100]
    print(f"| {name} | {len(took)} | {p50:.2f} | {p99:.2f} | {took[-1]:.2f} |", flush=True)


def run(service, processes, entries, path, readers, seconds):
    for place in range(ENVIRONMENTS):
        processes.begin(send_back, service.port + 1 + place)
    caller = connect(service.port)
    for _ in range((entries + 1) // 2):
        ask(caller, "POST", INVOKE, LARGE)
    caller.close()
    print("| | calls | p50 ms | p99 ms | longest ms |\n|---|---|---|---|---|")
    measure("alone", processes, service.port, seconds)
    count = multiprocessing.Value("Q", 0)
    reading = [processes.begin(read_again, service.port, path, count) for _ in range(readers)]
    time.sleep(0.5)
    before, start = count.value, time.monotonic()
    measure(f"beside {readers} of {path}", processes, service.port, seconds)
    rate = (count.value - before) / (time.monotonic() - start) / 1e6
    if not all(it.is_alive() for it in reading):
        raise Trouble(f"a reader of {path} has ended")
    print(f"\n{path} was read at {rate:.1f} MB/s.")


def main():
    parser = argparse.ArgumentParser(description=__doc__, formatter_class=argparse.RawDescriptionHelpFormatter)
    parser.add_argument("--program", default=BUILT)
    parser.add_argument("--entries", type=int, default=100)
    parser.add_argument("--path", default="/_local/history")
    parser.add_argument("--readers", type=int, default=1)
    parser.add_argument("--seconds", type=float, default=20)
    given = parser.parse_args()
    try:
        with Service(Kind("lambda_local", given.program, True), ENVIRONMENTS) as service, Processes() as processes:
            run(service, processes, given.entries, given.path, given.readers, given.seconds)
    except (Trouble, OSError, http.client.HTTPException) as trouble:
        print("bench:", trouble, file=sys.stderr)
        return 1
    return 0


if __name__ == "__main__":
    sys.exit(main())
