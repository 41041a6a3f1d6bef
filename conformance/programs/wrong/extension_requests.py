"""Extensions with one mistake each in the requests that they make, or in what they keep. A class is named after its
mistake, `check` is the check that catches it, and `also` are others that cannot but catch it too."""
import json
import os
import sys
import threading
import time

import wrong_requests
from connection import Client, Connection
from shared_mistakes import is_scenario
from sound_extension import PATH, Extension
from wrong_requests import sending

REGISTRATION = {"name", "events", "asks_for_events", "identifier"}
INVOCATIONS = {"asks_after_invoke", "invoke_in_time", "one_poll", "known_requests"}
ALL = {*INVOCATIONS, "ends_at_spindown", "ends_at_timeout", "registers_anew", "ends_at_failure", "crash_noticed",
       "works_after_crash", "next_without_timeout", "exit_error", "header_names", "chunked_answers", "more_headers",
       "slow_answers", "closing_answers", "connection_end", "telemetry", "without_telemetry", "takes_telemetry",
       "takes_again", "takes_empty_batch", "takes_dropped", "takes_logs", "takes_until_shutdown", "takes_in_shutdown",
       "many_events"}


# ---- registration ----------------------------------------------------------------------------------------------------

class RegistersByPut(Extension):
    check, also = "registers", REGISTRATION

    def ask(self, method, path, body=None, headers=None):
        return super().ask("PUT" if path.endswith("register") else method, path, body, headers)


class RegistersAtAnotherVersion(Extension):
    check, also = "registers", REGISTRATION
    connected = sending(lambda data: data.replace(b"/2020-01-01/", b"/2020-08-15/", 1))


class RegistersInLowerCase(Extension):
    check, also = "registers", REGISTRATION

    def events(self):
        return ["invoke", "shutdown"]


class RegistersATextOfEvents(Extension):
    check, also = "registers", REGISTRATION

    def events(self):
        return "INVOKE,SHUTDOWN"


class RegistersWithoutABody(Extension):
    check, also = "registers", REGISTRATION

    def register(self):
        answer = Client.ask(self, "POST", PATH + "register", None, {"Lambda-Extension-Name": self.name()})
        self.identifier = answer.headers["Lambda-Extension-Identifier"]


class RegistersWithoutItsName(Extension):
    check, also = "registers", REGISTRATION
    connected = sending(lambda data: data.replace(b"Lambda-Extension-Name", b"X-Name", 1))


class HasNoHost(Extension):
    check, also = "registers", REGISTRATION
    connected = sending(lambda data: data.replace(b"Host: ", b"X-Host: ", 1))


class RegistersForNothing(Extension):
    check, also = "events", ALL

    def events(self):
        return []


class SendsItsPath(Extension):
    check = "name"

    def name(self):
        return "/opt/extensions/sound"


class SendsItsNameInCapitals(Extension):
    check = "name"

    def name(self):
        return "SOUND"


class MisspellsItsIdentifier(Extension):
    """The name of that header."""
    check, also = "identifier", REGISTRATION
    connected = sending(lambda data: data.replace(b"Lambda-Extension-Identifier", b"Lambda-Extension-Id", 1))


class SendsItsIdentifierInCapitals(Extension):
    check, also = "identifier", {"telemetry"}

    def headers(self):
        return {"Lambda-Extension-Identifier": self.identifier.upper()} if self.identifier else {}


class SendsItsNameForItsIdentifier(Extension):
    check, also = "identifier", REGISTRATION

    def headers(self):
        return {"Lambda-Extension-Identifier": self.name()} if self.identifier else {}


class AsksByPost(Extension):
    check, also = "asks_for_events", REGISTRATION

    def next(self):
        return self.ask("POST", self.next_path)


class AsksAtTheRuntimesRoute(Extension):
    check, also = "asks_for_events", REGISTRATION

    def next(self):
        return self.ask("GET", PATH + "invocation/next")


class NeverAsks(Extension):
    check, also, settings = "asks_for_events", REGISTRATION, {"init-seconds": 1}

    def next(self):
        time.sleep(1000)


# ---- events ----------------------------------------------------------------------------------------------------------

class RegistersAgainAtEachEvent(Extension):
    check = "known_requests"

    def invoked(self, event):
        super().invoked(event)
        if is_scenario("invocations"):
            self.ask("POST", PATH + "register", {"events": self.events()}, {"Lambda-Extension-Name": self.name()})


class AsksForTheRuntimesInvocation(Extension):
    check = "known_requests"

    def invoked(self, event):
        super().invoked(event)
        if is_scenario("invocations"):
            self.ask("GET", "/2018-06-01/runtime/invocation")


class AsksAsARuntime(Extension):
    """While the runtime works, so that it is refused."""
    check = "known_requests"

    def invoked(self, event):
        super().invoked(event)
        if is_scenario("invocations"):
            self.ask("POST", f"/2018-06-01/runtime/invocation/{event['requestId']}/response", {})


class SubscribesByPost(Extension):
    check = "known_requests"

    def subscribe(self):
        if is_scenario("invocations"):
            self.ask("POST", "/2022-07-01/telemetry", {"schemaVersion": "2022-12-13", "types": ["platform"]})


class AsksWithTheEventsIdentifier(Extension):
    check, also, told = "asks_after_invoke", ALL, None

    def one_event(self):
        answer = self.next()
        self.identifier = answer.headers["Lambda-Extension-Event-Identifier"] or self.identifier
        self.next = lambda: answer
        try:
            super().one_event()
        finally:
            del self.next


class EndsAtItsFirstEvent(Extension):
    check, also = "asks_after_invoke", ALL

    def invoked(self, event):
        super().invoked(event)
        self.end(0)


class WaitsForTheDeadline(Extension):
    check, also, settings = "invoke_in_time", ALL, {}

    def invoked(self, event):
        super().invoked(event)
        if is_scenario("invocations"):
            time.sleep(max(0.0, event["deadlineMs"] / 1000 - time.time()) + 0.3)


class TakesTheDeadlineForSeconds(Extension):
    """And waits for the runtime until then."""
    check, also = "asks_after_invoke", {"invoke_in_time"}

    def invoked(self, event):
        super().invoked(event)
        if is_scenario("invocations"):
            time.sleep(min(1000.0, event["deadlineMs"] - time.time()))


# ---- its end ---------------------------------------------------------------------------------------------------------

class WaitsForASecondShutdown(Extension):
    check, also, seen = "ends_at_spindown", {"ends_at_timeout", "ends_at_failure"}, 0

    def shut_down(self, reason):
        self.seen += 1
        if self.seen > 1:
            super().shut_down(reason)


class FlushesForThreeSeconds(Extension):
    check, also = "ends_at_spindown", {"ends_at_timeout", "ends_at_failure"}

    def shut_down(self, reason):
        time.sleep(3)
        super().shut_down(reason)


class LeavesAThreadThatHoldsIt(Extension):
    check, also = "ends_at_spindown", {"ends_at_timeout", "ends_at_failure"}

    def shut_down(self, reason):
        threading.Thread(target=time.sleep, args=(1000,)).start()
        super().shut_down(reason)


class IgnoresTheContainersError(Extension):
    check = "ends_at_500"

    def at_500(self):
        time.sleep(1)


# ---- reports ---------------------------------------------------------------------------------------------------------

class ReportsAText(Extension):
    check, also = "init_error", {"exit_error"}

    def report(self, path, fault):
        Client.ask(self, "POST", PATH + path, str(fault).encode(), self.report_headers())


class ReportsWithoutAType(Extension):
    check, also = "init_error", {"exit_error"}

    def report(self, path, fault):
        self.ask("POST", PATH + path, {"errorMessage": str(fault)}, self.report_headers())


class ReportsAsARuntime(Extension):
    check, also = "init_error", {"exit_error"}

    def report(self, path, fault):
        self.ask("POST", "/2018-06-01/runtime/init/error", {"errorMessage": str(fault), "errorType": "x"})


class ReportsWithoutItsIdentifier(Extension):
    check, also = "init_error", {"exit_error"}

    def report(self, path, fault):
        self.identifier = None
        super().report(path, fault)


# ---- telemetry -------------------------------------------------------------------------------------------------------

RIGHT = {"schemaVersion": "2022-12-13", "types": ["platform"],
         "destination": {"protocol": "HTTP", "URI": "http://sandbox.localdomain:4323"}}
SUBSCRIPTIONS = {
    "SubscribesToWhatIsNot": {**RIGHT, "types": ["platform", "extensions"]},
    "SubscribesToNothing": {**RIGHT, "types": []},
    "SubscribesWithoutAVersion": {name: value for name, value in RIGHT.items() if name != "schemaVersion"},
    "SubscribesWithAVersionOfItsOwn": {**RIGHT, "schemaVersion": "1.0"},
    "SubscribesWithoutADestination": {name: value for name, value in RIGHT.items() if name != "destination"},
    "SubscribesAtLambdasPort": {**RIGHT, "destination": {"protocol": "HTTP", "URI": "http://sandbox.localdomain:9001"}},
    "SubscribesOverTls": {**RIGHT, "destination": {"protocol": "HTTPS", "URI": "https://sandbox.localdomain:4323"}},
    "SubscribesWithATextForAPort": {**RIGHT, "destination": {"protocol": "TCP", "port": "4323"}},
    "BuffersTooLittle": {**RIGHT, "buffering": {"maxItems": 10, "maxBytes": 262144, "timeoutMs": 100}},
    "BuffersForAMinute": {**RIGHT, "buffering": {"timeoutMs": 60_000}},
}


class Subscribing(Extension):
    check, wanted = "telemetry", RIGHT

    def subscribe(self):
        self.subscribed(self.ask("PUT", "/2022-07-01/telemetry", self.wanted))


class TriesForTelemetryForEver(Extension):
    check, also = "without_telemetry", set()

    def subscribed(self, answer):
        while answer.status == 404:
            time.sleep(0.1)
            answer = self.ask("PUT", "/2022-07-01/telemetry", RIGHT)


class ReadsTheSubscriptionAsAnObject(Extension):
    """Lambda answers a text."""
    check, also = "asks_for_events", {*ALL, *REGISTRATION}

    def subscribed(self, answer):
        if answer.status == 200:
            json.loads(answer.body)["status"]


# ---- many events, and other answers ----------------------------------------------------------------------------------

class DiesAfterAHundredEvents(Extension):
    settings = {"invocations": 200}
    check, count = "many_events", 0

    def invoked(self, event):
        super().invoked(event)
        self.count += 1
        if self.count > 100:
            sys.exit(1)


class KeepsItsConnections(Extension):
    settings = {"invocations": 60}
    check, kept = "descriptors", []

    def next(self):
        if is_scenario("many_events"):
            self.kept.append(self.connection)
            self.connection = Connection(self.address)
        return super().next()


class OpensItsLogForEach(Extension):
    settings = {"invocations": 60}
    check, files = "descriptors", []

    def invoked(self, event):
        super().invoked(event)
        if is_scenario("many_events"):
            self.files.append(open("/dev/null", "a"))


class KeepsALittleOfEach(Extension):
    settings = {"invocations": 500}
    check, kept = "memory", []

    def invoked(self, event):
        super().invoked(event)
        self.kept.append(os.urandom(40_000))


class ReadsOnce(Extension):
    check, connected, also = "slow_answers", wrong_requests.ReadsOnce.Once, {"chunked_answers", "more_headers"}


class FindsHeadersByAPart(Extension):
    """Takes any header that ends so for its identifier."""
    check = "more_headers"

    def register(self):
        answer = self.ask("POST", PATH + "register", {"events": self.events()}, {"Lambda-Extension-Name": self.name()})
        found = [value for name, value in answer.headers.items() if name.endswith("id") or name.endswith("identifier")]
        self.identifier = found[-1] if found else None


MISTAKES = {name: type(name, (Subscribing,), {"wanted": wanted}) for name, wanted in SUBSCRIPTIONS.items()}
