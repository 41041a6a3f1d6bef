"""Runtimes with one mistake each in what they leave behind of many invocations. A class is named after its mistake, and
`check` is the check that catches it."""
import os
import socket
import sys
import threading
import time
from concurrent.futures import Future

from shared_mistakes import is_scenario
from sound_runtime import Parts, Runtime


class EndsAfterFortyInvocations(Runtime):
    check, count, settings = "many_invocations", 0, {"invocations": 100}

    def respond(self, request, output):
        super().respond(request, output)
        self.count += 1
        if self.count == 40:
            sys.exit(0)


class RespondsTwiceNowAndThen(Runtime):
    check, count = "many_invocations", 0

    def sent(self, answer, request, output):
        super().sent(answer, request, output)
        self.count += 1
        if self.count % 9 == 0 and is_scenario("thousands"):
            self.ask("POST", f"invocation/{request}/response", b"null")


class KeepsLargeEventsByTheirLength(Runtime):
    check, kept = "many_invocations", {}

    def read(self, payload):
        if len(payload) < 10_000:
            return super().read(payload)
        return self.kept.setdefault(len(payload), super().read(payload)) if is_scenario("thousands") else (
            super().read(payload))


class OpensAFileForEachError(Runtime):
    check, files, settings = "descriptors", [], {"invocations": 200}

    def fails(self, request, fault):
        self.files.append(open(os.devnull))
        super().fails(request, fault)


class StartsAThreadForEachError(Runtime):
    check, settings = "threads", {"invocations": 200}

    def fails(self, request, fault):
        threading.Thread(target=time.sleep, args=(1000,), daemon=True).start()
        super().fails(request, fault)


class KeepsItsConnections(Runtime):
    """Opens a new one for each response, and closes none."""
    check, kept, settings = "descriptors", [], {"invocations": 100}

    def respond(self, request, output):
        if isinstance(output, Parts) or not is_scenario("thousands"):
            return super().respond(request, output)
        other = Runtime()
        self.kept.append(other)
        return other.ask("POST", f"invocation/{request}/response", self.dump(output))


class ListensForEach(Runtime):
    check, kept, settings = "descriptors", [], {"invocations": 100}

    def read(self, payload):
        if len(payload) > 10_000 and is_scenario("thousands"):
            self.kept.append(socket.create_server(("127.0.0.1", 0)))
        return super().read(payload)


class KeepsEveryOutput(Runtime):
    check, kept, settings = "memory", [], {"invocations": 500}

    def dump(self, output):
        body = super().dump(output)
        self.kept.append(bytearray(body))
        return body


class KeepsALineOfEachInvocation(Runtime):
    """Two hundred bytes."""
    check, kept, settings = "memory", [], {"invocations": 1400}

    def respond(self, request, output):
        self.kept.append(f"{request} has an output, and that was sent".ljust(200).encode())
        super().respond(request, output)


class WaitsForWhatNeverEnds(Runtime):
    """Each invocation waits for its output or for a signal that never comes, and what waits for that stays."""
    check, settings = "memory", {"invocations": 500}

    def begin(self):
        super().begin()
        self.ends = Future()

    def respond(self, request, output):
        done = Future()
        self.ends.add_done_callback(lambda _: done.done() or done.set_result(output))
        done.set_result(output)
        super().respond(request, done.result())


class LogsToAFile(Runtime):
    """All events, each in a file of its own."""
    check, settings = "files", {"invocations": 100}

    def read(self, payload):
        if len(payload) > 10_000 and is_scenario("thousands"):
            with open(os.path.join(os.environ.get("TMPDIR", "/tmp"), f"log.{time.monotonic_ns()}"), "wb") as file:
                file.write(payload)
        return super().read(payload)
