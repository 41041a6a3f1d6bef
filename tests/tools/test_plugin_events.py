"""Checks invocations of the type Event in the pytest plugin: retries, a record of what has failed, and what is left at
the end; and that a runtime outlives what is no answer. The program is LAMBDA_LOCAL_PROGRAM, else ./lambda_local."""
import contextlib
import io
import threading
import time
from typing import Any, List

from lambda_local.configuration import Members
from lambda_local.in_process import Runtime
from pytest_lambda_local import LambdaLocal
from tests.library.cases import Case
from tests.library.events_kit import Caller, invoke_path
from tests.library.fake_trace import Fake
from tests.tools.test_plugin import fault_of

EVENT, TAIL = {"X-Amz-Invocation-Type": "Event"}, {"X-Amz-Log-Type": "Tail"}


def send(service, name, body=b"{}", headers=EVENT):
    """The status of an Event, or of another invocation."""
    with Caller(service.endpoint_url) as caller:
        return caller.ask("POST", invoke_path(name), body, headers)[0]


class Owner:
    """What a runtime asks of its test's services. All ends once its service was asked twice."""
    maker = sandbox = None
    runtimes: List[object] = []

    def __init__(self, service: Fake) -> None:
        self.service = service

    def has_ended(self) -> bool:
        return len(self.service.asked) > 1

    def hold_init(self, *_: object) -> None:
        pass


class PluginEvents(Case):
    def test_a_runtime_goes_on_after_an_answer_that_is_none(self) -> None:
        service = Fake(b"nonsense\r\n\r\n", b"HTTP/1.1 500 No\r\nContent-Length: 0\r\n\r\n")
        owner: Any = Owner(service)
        runtime = Runtime(owner, "f", 1, service.port, lambda event: event, "128")
        runtime.start()
        runtime.join(30)
        asked = list(service.asked)
        while len(service.asked) < 2:  # (so that the service ends too)
            runtime.environment.ask("GET", "invocation/next")
        service.close()
        self.check("it has asked again", asked, ["/2018-06-01/runtime/invocation/next"] * 2)

    def test_an_event_is_taken_retried_and_recorded(self):
        seen: List[object] = []
        records: List[Members] = []

        def flaky(event):
            seen.append(event)
            if len(seen) < 3:
                raise KeyError("not yet")

        def broken(_event):
            raise KeyError("never")

        given = {"delays": [0.05], "onFailure": "records"}
        with contextlib.redirect_stderr(io.StringIO()), LambdaLocal(
                {"flaky": {}, "broken": {}, "records": {}}, asynchronous=given, flaky=flaky, broken=broken,
                records=records.append) as service:
            self.check("an event is taken", send(service, "flaky", b'{"order": 7}'), 202)
            self.check("it is waited for", service.settled(30))
            self.check("and tried three times", seen, 3 * [{"order": 7}])
            self.check("a plain invocation is as before", service.invoke("records", 1), None)
            self.check("one whose caller asks for its log too", send(service, "records", b"1", TAIL), 200)
            records.clear()
            send(service, "broken", b'{"order": 8}')
            self.check("what fails each time is recorded", (service.settled(30), [
                (record["requestPayload"], record["requestContext"]["approximateInvokeCount"],
                 record["responsePayload"]["errorType"]) for record in records]),
                       (True, [({"order": 8}, 3, "KeyError")]))
            self.check("an unknown function", send(service, "nothing"), 404)

    def test_an_event_that_runs_is_waited_for_at_the_end(self):
        begun, over = threading.Event(), []

        def slow(_event):
            begun.set()
            time.sleep(1)
            over.append(1)

        with LambdaLocal(asynchronous=True, slow=slow) as service:
            send(service, "slow")
            begun.wait(20)
        self.check("an event that runs is waited for at the end", over, [1])

    def test_without_asynchronous_an_event_is_refused(self):
        with LambdaLocal(f=lambda event: event) as service:
            self.check("without asynchronous it is refused", send(service, "f"), 400)

    def test_wrong_settings_are_told(self):
        f = {"f": lambda event: event}
        for given, wanted in (
                (5, 'asynchronous must be True, or a dict such as {"retries": 0}, not 5'),
                ({"retires": 1}, "asynchronous: unknown member retires, did you mean retries?"),
                ({"retries": 7}, "asynchronous: retries must be a whole number from 0 to 2, not 7"),
                ({"onFailure": "g"}, 'asynchronous: onFailure: there is no function "g"')):
            self.check(f"wrong: {wanted}", fault_of(LambdaLocal, asynchronous=given, **f), f"ValueError: {wanted}")
