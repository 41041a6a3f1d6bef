"""Extensions with one mistake each in what they make of the telemetry that they get."""
import os
import signal
import socket
import time

from shared_mistakes import is_scenario
from sound_extension import Extension

# Those of the kit that the page has.
KNOWN = ("platform.start", "platform.runtimeDone", "platform.report", "platform.logsDropped", "function", "extension")


class RefusesBatches(Extension):
    check = "takes_telemetry"

    def taken(self, batch):
        return b"HTTP/1.1 500 No\r\nContent-Length: 0\r\nConnection: close\r\n\r\n"


class AnswersNoBatch(Extension):
    check = "takes_telemetry"

    def taken(self, batch):
        time.sleep(3600)
        return b""


class AnswersBatchesWithALine(Extension):
    check = "takes_telemetry"

    def taken(self, batch):
        return b"thanks\n"


class ReadsBatchesAsAscii(Extension):
    check = "takes_telemetry"

    def batch_of(self, body):
        return super().batch_of(body.decode("ascii"))


class CutsItsAnswersShort(Extension):
    check = "takes_telemetry"

    def taken(self, batch):
        return b"HTTP/1.1 200 OK\r\nContent-Length: 2\r\n\r\n"


class EndsAtAnUnknownEvent(Extension):
    """Of telemetry."""
    check = "takes_telemetry"

    def taken(self, batch):
        if any(event["type"] not in KNOWN for event in batch):
            os._exit(1)
        return super().taken(batch)


class EndsAtABatchThatComesAgain(Extension):
    check = "takes_again"

    def __init__(self):
        super().__init__()
        self.seen = []

    def taken(self, batch):
        if batch in self.seen:
            self.came_again()
        self.seen.append(batch)
        return super().taken(batch)

    def came_again(self):
        os._exit(1)


class RefusesABatchThatComesAgain(EndsAtABatchThatComesAgain):
    def taken(self, batch):
        return (b"HTTP/1.1 409 Conflict\r\nContent-Length: 0\r\nConnection: close\r\n\r\n"
                if batch in self.seen else super().taken(batch))


class TakesAStartOnce(Extension):
    """Before the end of its request."""
    check = "takes_again"

    def __init__(self):
        super().__init__()
        self.begun = set()

    def taken(self, batch):
        for event in batch if is_scenario("batches_again") else []:
            if event["type"] == "platform.start":
                if event["record"]["requestId"] in self.begun:
                    os._exit(1)
                self.begun.add(event["record"]["requestId"])
            elif event["type"] == "platform.runtimeDone":
                self.begun.discard(event["record"]["requestId"])
        return super().taken(batch)


class LooksForTheStartBesideTheReport(Extension):
    """Which comes in a batch of its own."""
    check = "takes_again"

    def taken(self, batch):
        if batch and batch[0]["type"] == "platform.report":
            next(event for event in batch if event["type"] == "platform.start")
        return super().taken(batch)


class LooksForARequestInEachPlatformEvent(Extension):
    check = "takes_dropped"

    def taken(self, batch):
        for event in batch:
            if event["type"] in KNOWN and event["type"].startswith("platform."):
                event["record"]["requestId"]
        return super().taken(batch)


class LooksForARequestInAnyPlatformEvent(Extension):
    """In those that it does not know, too."""
    check, also = "takes_telemetry", {"takes_dropped"}

    def taken(self, batch):
        for event in batch:
            if event["type"].startswith("platform."):
                event["record"]["requestId"]
        return super().taken(batch)


class EndsWhenEventsWereDropped(Extension):
    check = "takes_dropped"

    def taken(self, batch):
        if any(event["type"] == "platform.logsDropped" for event in batch):
            os._exit(1)
        return super().taken(batch)


class LooksAtTheFirstEvent(Extension):
    """Of each batch, also of one that has none."""
    check, outcome = "takes_empty_batch", "NOTE"

    def taken(self, batch):
        batch[0]["time"]
        return super().taken(batch)


# ---- its end ---------------------------------------------------------------------------------------------------------

class ClosesItsReceiverAfterAnInvocation(Extension):
    check, listener = "takes_until_shutdown", None

    def receive(self, listener):
        self.listener = listener
        super().receive(listener)

    def close(self):
        if self.listener:
            self.listener.shutdown(socket.SHUT_RDWR)  # (closing alone would not wake who accepts)
            self.listener.close()
        self.listener = None

    def invoked(self, event):
        self.close()
        super().invoked(event)


class ClosesItsReceiverAtShutdown(ClosesItsReceiverAfterAnInvocation):
    """And still works on."""
    check, outcome = "takes_in_shutdown", "SHOULD"

    def invoked(self, event):
        Extension.invoked(self, event)

    def shut_down(self, reason):
        self.close()
        if is_scenario("batches_at_the_end"):
            signal.pause()
        super().shut_down(reason)


# ---- the Logs API ----------------------------------------------------------------------------------------------------

class LooksForARequestInAFault(Extension):
    """Subscribes to the Logs API, in which the record of a fault is a string."""
    check, telemetry_path, schema = "takes_logs", "/2020-08-15/logs", "2020-08-15"

    def taken(self, batch):
        for event in batch:
            if event["type"] == "platform.fault":
                event["record"]["requestId"]
        return super().taken(batch)


class NeedsTheDoneOfItsRuntime(LooksForARequestInAFault):
    """Which the first schema of the Logs API does not have: there it is the end."""

    def taken(self, batch):
        kinds = [event["type"] for event in batch]
        if "platform.end" in kinds and "platform.start" in kinds:
            kinds.index("platform.runtimeDone")
        return Extension.taken(self, batch)
