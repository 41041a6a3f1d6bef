"""Checks the connections of a front to its service: what the service is asked, that each caller gets its own answer,
and what becomes of a caller if there is no descriptor for one."""
import asyncio
import errno
import json
import time
from typing import List
from unittest import mock

from lambda_local.exchange.client import Client, NoDescriptor, Unreachable
from lambda_local.front.tasks import begin_task
from tests.library.cases import Case
from tests.library.events_kit import invoke_path
from tests.library.failing_service import Service, answer_to, front_of

STATS = b"GET /_local/stats HTTP/1.1\r\nHost: a\r\n\r\n"


class FrontConnections(Case):
    def test_an_invocation_is_sent_once_whatever_becomes_of_it(self):
        """What is passed on is sent once, whatever becomes of it."""
        for deed in ("closes", "breaks off in the head", "has no memory"):
            service = Service(deed)
            with front_of(service) as (_, caller, _):
                seen = caller.ask("POST", invoke_path("f"), b'{"number":1}')[0]
                self.check(f"an invocation that {deed}: its caller sees it", seen,
                           500 if deed == "has no memory" else 502)
                time.sleep(0.1)
                self.check("it is sent once", service.runs, [(1, deed)])

    def test_the_service_is_asked_by_the_fronts_own_heads(self):
        """What the service is asked is the front's own: whatever else a head has, it does not come there."""
        def asked():
            return [head for head in service.heads if b" /_local/requests/" not in head]
        service = Service("ok", "ok", "ok")
        with front_of(service) as (front, caller, _):
            path = invoke_path("f")
            own = f"Host: 127.0.0.1:{service.port}\r\n"
            for name, data, wanted in (
                    ("much else",
                     f"POST {path}?Qualifier=$LATEST HTTP/1.1\r\nHost: localhost\r\nConnection: x-one, close\r\n"
                     "X-One: 1\r\nX-Amzn-Trace-Id: Root=1\r\nx-amzn-trace-id: Root=2\r\nExpect: 100-continue\r\n"
                     "Content-Length: 12\r\nUpgrade: h2c\r\n\r\n",
                     f"POST {path}?Qualifier=$LATEST HTTP/1.1\r\n{own}X-Amzn-Trace-Id: Root=1\r\n"
                     "Content-Length: 12\r\n"),
                    ("absolute form", f"POST http://a.localhost{path} HTTP/1.0\r\nContent-Length: 12\r\n\r\n",
                     f"POST {path} HTTP/1.1\r\n{own}Content-Length: 12\r\n")):
                service.heads.clear()
                status, _ = answer_to(front, data.encode() + b'{"number":1}')
                self.check(f"what the service is asked: {name}", (status, asked()), (200, [wanted.encode()]))
            absolute = f"POST http://localhost{path} HTTP/1.1\r\nHost: a\r\nX-Amz-Invocation-Type: Event\r\n"
            self.check("an event in absolute form is taken",
                       answer_to(front, absolute.encode() + b'Content-Length: 12\r\n\r\n{"number":2}')[0], 202)

    def test_a_connection_with_more_than_its_answer_is_not_used_again(self):
        """A connection on which more has come than its answer is not used again."""
        service = Service("answers twice")
        with front_of(service) as (_, caller, _):
            seen = [caller.ask("POST", invoke_path("f"), b'{"number":%d}' % number)[2] for number in range(3)]
            # (beside two of the handler, and one by which it is seen)
            self.check("each caller gets its own answer", (seen, service.connections <= 2 + 3), ([b"1"] * 3, True))

    def test_a_caller_for_whom_there_is_no_descriptor_is_told_so(self):
        def without(*_):
            raise NoDescriptor

        with front_of(Service()) as (front, _, told):
            kept, front.client.connection = front.client.connection, without
            seen = [answer_to(front, STATS) for _ in range(3)]
            front.client.connection = kept
            self.check("each gets a 503", [(status, json.loads(body)["Message"]) for status, body in seen],
                       [(503, "There are too many connections (ulimit -n)")] * 3)
            self.check("one line says so", sum("no file descriptor is left" in line for line in told.lines), 1)
            self.check("and all goes on", answer_to(front, STATS)[0], 200)

    def test_a_connection_that_the_system_gives_up_is_none(self):
        async def opened():
            given_up = TimeoutError(errno.ETIMEDOUT, "Connection timed out")
            with mock.patch.object(asyncio.get_running_loop(), "create_connection", side_effect=given_up):
                await Client(1).connection()
        with self.assertRaises(Unreachable) as caught:
            asyncio.run(opened())
        self.check("why is told", "Connection timed out" in str(caught.exception), shown=caught.exception)

    def test_a_task_that_ends_by_an_exception_is_told(self):
        """A task that ends by an exception is told; one that is cancelled is not."""
        async def fails():
            raise ValueError("no")

        async def begin():
            tasks = [begin_task(fails(), "the one", told.append),
                     begin_task(asyncio.sleep(9), "the other", told.append)]
            await asyncio.sleep(0)
            tasks[1].cancel()
            await asyncio.gather(*tasks, return_exceptions=True)
            await asyncio.sleep(0)

        told: List[str] = []
        asyncio.run(begin())
        self.check("what is told of two tasks", told, ["the one cannot go on: ValueError('no')"])
