"""Checks what happens to an event if the service, or the connection to it, fails: before it has the event, while its
function runs, and after that. No event runs again unless a line has said why, and none is lost."""
import time

from lambda_local.front import queue
from tests.library.cases import Case
from tests.library.events_kit import invoke_path
from tests.library.failing_service import MUCH, PATIENCE, Handed, Service, front_of, statuses
from tests.library.up_kit import until


class EventsFaults(Case):
    def test_an_event_is_sent_again_only_if_its_attempt_failed(self):
        """Each deed once, and then the event succeeds: how often it is sent, and what is reported."""
        for deed, wanted in (("ok", ["ok"]), ("ok, and closes", ["ok"]), ("fails", ["retry", "ok"]),
                             ("throttles", ["ok"]),
                             ("has no memory", ["fault", "ok"]), ("closes", ["retry", "ok"]),
                             ("breaks off in the head", ["retry", "ok"]), ("breaks off in the body", ["retry", "ok"]),
                             ("answers no HTTP", ["retry", "ok"])):
            service = Service(deed)
            with front_of(service) as (front, caller, told):
                caller.event("f", {"number": 1})
                until(lambda: "ok" in statuses(told), PATIENCE)
                self.check(f"a service that {deed}: what is told", statuses(told), wanted)
                again = [(1, "ok")] * (not deed.startswith("ok"))
                self.check("it is sent once, and again only then", service.runs, [(1, deed), *again])
                self.check("nothing is left", (front.queue.count, front.queue.size), (0, 0))

    def test_an_event_without_an_outcome_is_given_up_after_three_attempts(self):
        """An event of whose attempts no outcome is known goes to its destination."""
        service = Service("closes", "breaks off in the body", "closes")
        with front_of(service) as (front, caller, told):
            identifier = caller.event("f", {"number": 1})[1]["x-amzn-requestid"]
            until(lambda: front.queue.count == 0, PATIENCE)
            self.check("an event without an outcome is given up after three attempts", statuses(told),
                       ["retry", "retry", "RetriesExhausted"])
            self.check("each of its lines says why",
                       [line.text.count("the service broke its connection off") for line in told[:3]], [1, 1, 1])
            self.check("it is sent three times", (service.runs[:3], told[0].request),
                       ([(1, "closes"), (1, "breaks off in the body"), (1, "closes")], identifier))

    def test_a_connection_that_was_closed_meanwhile_is_not_used_again(self):
        """A connection that the service has closed meanwhile is not used again: no event is tried twice for it."""
        service = Service(*["ok", "ok, and closes"] * 10)
        with front_of(service) as (front, caller, told):
            for number in range(20):
                caller.event("f", {"number": number})
                until(lambda: len(told) > number and service.closed == len(told) // 2, PATIENCE)
            self.check("each event is sent once, in turn", [number for number, _ in service.runs], list(range(20)))
            self.check("each succeeds in its first attempt", [(line.status, line.attempts) for line in told],
                       [("ok", 1)] * 20)
            # (beside some of the handler, one by which it is seen, and those by which the storm's port sends events on)
            self.check("a connection that is open is used again", service.connections <= 10 + 7, True,
                       shown=service.connections)

    def test_a_service_that_is_stopped_is_not_asked_again(self):
        """A service that is stopped, or gone: the events that are left are reported."""
        service = Service("is stopped")
        with front_of(service) as (front, caller, told):
            caller.event("f", {"number": 1})
            until(lambda: service.runs, PATIENCE)
            time.sleep(0.3)
            self.check("a service that is stopped is not asked again", service.runs, [(1, "is stopped")])
        self.check("the event is lost by the stop, which is told", statuses(told), ["lost"])

    def test_an_event_that_cannot_be_sent_is_no_failed_attempt(self):
        service = Service()
        with front_of(service) as (front, caller, told):
            caller.event("f", {"number": 1})
            until(lambda: statuses(told) == ["ok"], PATIENCE)
            service.close()
            time.sleep(0.2)
            front.client.close()  # (what was open)
            head = f"POST {invoke_path('f')} HTTP/1.1\r\nX-Amz-Invocation-Type: Event\r\n"
            service.waiting.put(Handed(head.encode(), b'{"number": 2}', service.port))
            until(lambda: len(told) >= 4, PATIENCE)
            self.check("an event that cannot be sent is no failed attempt", statuses(told)[1:4], ["fault"] * 3)
        self.check("it is told at the end", (statuses(told)[-1], told[-1].attempts, service.runs),
                   ("lost", 0, [(1, "ok")]))

    def test_what_is_held_of_results_is_bounded_in_bytes(self):
        """The bound in bytes counts what the functions report, too: here of 100 times 64 KiB 2 MiB."""
        count, most = 100, queue.MOST_BYTES
        queue.MOST_BYTES = 2 << 20
        try:
            service = Service(*["fails with much"] * count)
            with front_of(service, retries=1, delays=[900]) as (front, caller, told):
                for number in range(count):
                    caller.event("f", {"number": number})
                until(lambda: statuses(told).count("retry") == count, PATIENCE)
                kept = sum(event.result is not None for event in front.queue.events.values())
                self.check("what is held is bounded", (front.queue.size <= 2 << 20, kept),
                           (True, (2 << 20) // (MUCH + 100)))
                self.check("each result that is not kept is told", statuses(told).count("result"), count - kept)
                self.check("a further event is refused", caller.event("f", {"number": 1, "x": "y" * MUCH})[0], 429)
        finally:
            queue.MOST_BYTES = most

    def test_a_record_has_the_result(self):
        service = Service(*["fails with much"] * 2)
        with front_of(service, retries=1) as (front, caller, told):
            caller.event("f", {"number": 1})
            until(lambda: front.queue.count == 0 and len(service.runs) == 3, PATIENCE)
            record = service.payloads[-1]
            self.check("a record has the result", (len(record["responsePayload"]["errorType"]),
                                                   record["requestPayload"],
                                                   record["responseContext"]["functionError"], front.queue.size),
                       (MUCH, {"number": 1}, "Unhandled", 0))

    def test_without_a_record_to_come_no_result_is_kept(self):
        service = Service("fails")
        with front_of(service, onFailure="f", retries=2, delays=[900]) as (front, caller, told):
            caller.event("f", {"number": 1})
            until(lambda: "retry" in statuses(told), PATIENCE)
            self.check("without a record to come, none is kept", front.queue.size, len(b'{"number": 1}'))

    def test_an_event_that_runs_at_the_stop_is_told_so(self):
        service = Service("never answers")
        with front_of(service) as (_, caller, told):
            caller.event("f", {"number": 1})
            until(lambda: service.runs, PATIENCE)
        self.check("an event that runs at the stop is told so", told[-1].text.partition(" is ")[2],
                   "lost by the stop, after 0 attempts, while attempt 1 runs")
