"""Extensions with one mistake each in what they make of answers: of refusals, of telemetry, of connections that end, of
many events. A class is named after its mistake, and `check` is the check that catches it, or by `outcome` if not by a
FAIL."""
import os
import signal
import sys
import threading
import time

import shared_mistakes
import wrong_connections
from shared_mistakes import is_scenario, temporary
from sound_extension import Extension


# ---- refusals --------------------------------------------------------------------------------------------------------

class WaitsAfter500AtItsRegistration(Extension):
    check, also = "ends_at_500_register", {"refused_registration"}

    def registration_refused(self):
        signal.pause()


class WaitsAfterARefusal(Extension):
    check = "refused_registration"

    def register(self):
        super().register()
        if not self.identifier and is_scenario("registration_refused"):
            signal.pause()


class WaitsAfterARefusedNext(Extension):
    check = "refused_next"

    def unknown(self, event):
        if not event:
            signal.pause()


class RegistersAgainAndAgain(Extension):
    check, outcome = "refused_registration", "SHOULD"

    def register(self):
        super().register()
        while not self.identifier and is_scenario("registration_refused"):
            super().register()


# ---- telemetry -------------------------------------------------------------------------------------------------------

class SubscribesBeforeItRegisters(Extension):
    check = "telemetry"

    def begin(self):
        self.subscribe()


class SubscribesWithoutItsIdentifier(Extension):
    check = "telemetry"

    def subscribe(self):
        identifier, self.identifier = self.identifier, None
        super().subscribe()
        self.identifier = identifier


class SubscribesSoonAfterItsNext(Extension):
    check = "telemetry"

    def subscribe(self):
        if not is_scenario("subscription"):
            return super().subscribe()
        later = Extension()
        later.identifier = self.identifier
        return threading.Timer(0.4, later.subscribe).start()


class SubscribesLate(Extension):
    check, asked = "telemetry", 0

    def subscribe(self):
        if self.asked:
            super().subscribe()

    def invoked(self, event):
        super().invoked(event)
        self.asked += 1
        if self.asked == 1:
            self.subscribe()


class SubscribesForItself(Extension):
    """With a destination that Lambda does not take."""
    check, wanted = "telemetry", {"protocol": "HTTP", "URI": "http://localhost:4323"}

    def subscribe(self):
        self.subscribed(self.ask("PUT", "/2022-07-01/telemetry", {
            "schemaVersion": "2022-12-13", "types": ["platform"], "destination": self.wanted}))


# ---- many events -----------------------------------------------------------------------------------------------------

class RegistersNowAndThen(Extension):
    check, count = "many_events", 0

    def invoked(self, event):
        super().invoked(event)
        self.count += 1
        if self.count % 9 == 0 and is_scenario("many_events"):
            self.ask("POST", "/2020-01-01/extension/register", {"events": []}, {"Lambda-Extension-Name": "sound"})


class DiesAfterFortyEvents(Extension):
    settings = {"invocations": 60}
    check, also, count = "many_events", {"memory", "descriptors", "threads", "children", "zombies", "files"}, 0

    def invoked(self, event):
        super().invoked(event)
        self.count += 1
        if self.count > 40:
            sys.exit(1)


class KeepsMuchOfEachEvent(Extension):
    settings = {"invocations": 500}
    check, kept = "memory", []

    def invoked(self, event):
        super().invoked(event)
        self.kept.append(os.urandom(100_000))


class KeepsATimerOfEachEvent(Extension):
    """Some hundred bytes."""
    settings = {"invocations": 1400}
    check, timers = "memory", []

    def invoked(self, event):
        super().invoked(event)
        self.timers.append((time.time() + 1e6, lambda: event["requestId"], bytearray(200)))


class LeavesFilesOpen(Extension):
    settings = {"invocations": 60}
    check, files = "descriptors", []

    def invoked(self, event):
        super().invoked(event)
        self.files.append(open(os.devnull))


class StartsAThreadForEach(Extension):
    settings = {"invocations": 60}
    check = "threads"

    def invoked(self, event):
        import threading
        super().invoked(event)
        threading.Thread(target=time.sleep, args=(1000,), daemon=True).start()


class LeavesProcesses(Extension):
    settings = {"invocations": 60}
    check = "children"

    def invoked(self, event):
        super().invoked(event)
        if is_scenario("many_events") and os.fork() == 0:
            self.connection.close()
            os.execvp("sleep", ["sleep", "60"])


class LeavesZombies(Extension):
    settings = {"invocations": 60}
    check = "zombies"

    def invoked(self, event):
        super().invoked(event)
        if is_scenario("many_events") and os.fork() == 0:
            os._exit(0)


class WritesAFileForEach(Extension):
    settings = {"invocations": 60}
    check, outcome, size = "files", "SHOULD", 0

    def invoked(self, event):
        super().invoked(event)
        if is_scenario("many_events"):
            with open(os.path.join(temporary(), f"wrong_extension.{event['requestId']}"), "w") as file:
                file.write(event["requestId"] + " " * self.size)


class WritesALargeFileForEach(WritesAFileForEach):
    outcome, size = "FAIL", 10_000


# ---- what it may not rely on -----------------------------------------------------------------------------------------

class ReadsItsOwnCase(Extension):
    settings = {"invocations": 60}
    check, connected = "header_names", wrong_connections.ReadsItsOwnCase.Exact


class CannotReadChunks(Extension):
    check, connected = "chunked_answers", wrong_connections.CannotReadChunks.ByLength


class HasRoomForFewHeaders(Extension):
    check, connected = "more_headers", wrong_connections.HasRoomForFewHeaders.Small


class GivesUpWithinAnAnswer(Extension):
    check, connected = "slow_answers", wrong_connections.GivesUpWithinAnAnswer.Hasty


class IgnoresConnectionClose(Extension):
    check, connected = "closing_answers", wrong_connections.IgnoresConnectionClose.Kept


class WaitsOnADeadConnection(Extension):
    check = "lost_poll"

    def next(self):
        if not is_scenario("lost_poll"):
            return super().next()
        self.connection.request("GET", self.next_path, headers=self.headers())
        try:
            return self.connection.answer()
        except ConnectionError:
            signal.pause()
            raise


class DiesOfAnUnknownEvent(Extension):
    check = "unknown_event"

    def unknown(self, event):
        self.end(1)


class WaitsForTelemetryThatCannotCome(Extension):
    """For the end of each invocation, also if there is no Telemetry API."""
    check = "without_telemetry"

    def invoked(self, event):
        super().invoked(event)
        if is_scenario("no_telemetry"):
            threading.Event().wait()


class DiesWithoutTelemetry(Extension):
    check = "without_telemetry"

    def subscribed(self, answer):
        if answer.status != 200:
            self.end(1)


class DiesWithItsConnection(shared_mistakes.DiesWithItsConnection, Extension):
    pass


class GivesNextUp(shared_mistakes.GivesNextUp, Extension):
    pass


class LeavesAnAlarm(shared_mistakes.LeavesAnAlarm, Extension):
    def invoked(self, event):
        super().invoked(event)
        self.set_alarm()
