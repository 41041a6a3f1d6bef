"""Checks the filters of streams: patterns of the Developer Guide's table, wrong ones, random ones against moto's
patterns of EventBridge, and records that no filter takes."""
import base64
import importlib.util
import json
import random
import unittest
from typing import Any, Dict, List

from lambda_local.event_sources import filters
from lambda_local.event_sources.checkpoints import Position
from tests.library.cases import Case
from tests.library.stream_kit import Driven, FakeServer, Kept, stream

WITH_MOTO = unittest.skipUnless(importlib.util.find_spec("moto"), "moto is not here")
EVENT = {"UserID": None, "LastName": "", "Name": "Alice", "Location": "New York", "Day": "Monday", "Weather": "Rainy",
         "Price": 100, "ProductName": "X", "Region": "us-east-1", "FileName": "a.png", "List": ["a", "b"], "Open": True,
         "Inner": {"Deep": {"State": "done"}}}
# The comparison operators of the page "Filter rule syntax", each once as it is met and once as it is not
RULES = (({"UserID": [None]}, {"Name": [None]}), ({"LastName": [""]}, {"Name": [""]}),
         ({"Name": ["Alice"]}, {"Name": ["alice"]}),
         ({"Name": [{"equals-ignore-case": "alice"}]}, {"Name": [{"equals-ignore-case": "alic"}]}),
         ({"Location": ["New York"], "Day": ["Monday"]}, {"Location": ["New York"], "Day": ["Friday"]}),
         ({"Day": ["Friday", "Monday"]}, {"Day": ["Friday"]}),
         ({"$or": [{"Location": ["Rome"]}, {"Day": ["Monday"]}]},
          {"$or": [{"Location": ["Rome"]}, {"Day": ["Friday"]}]}),
         ({"Weather": [{"anything-but": ["Raining"]}]}, {"Weather": [{"anything-but": ["Rainy"]}]}),
         ({"Price": [{"numeric": ["=", 100]}]}, {"Price": [{"numeric": ["=", 101]}]}),
         ({"Price": [{"numeric": [">", 10, "<=", 100]}]}, {"Price": [{"numeric": [">", 10, "<", 100]}]}),
         ({"ProductName": [{"exists": True}]}, {"ProductName": [{"exists": False}]}),
         ({"Absent": [{"exists": False}]}, {"Inner": [{"exists": True}]}),
         ({"Region": [{"prefix": "us-"}]}, {"Region": [{"prefix": "eu-"}]}),
         ({"FileName": [{"suffix": ".png"}]}, {"FileName": [{"suffix": ".jpg"}]}),
         ({"List": ["b"]}, {"List": ["c"]}), ({"Open": [True]}, {"Open": [1]}),
         ({"Price": [100.0]}, {"Price": ["100"]}),
         ({"Region": [{"anything-but": {"prefix": "eu-"}}]}, {"Region": [{"anything-but": {"prefix": "us-"}}]}),
         ({"Inner": {"Deep": {"State": ["done"]}}}, {"Inner": {"Other": {"State": ["done"]}}}))


class StreamFilters(Case):
    def test_a_pattern_takes_what_its_rules_say(self) -> None:
        met: Any
        unmet: Any
        for met, unmet in RULES:
            self.check(f"{met}", (list(filters.mistakes(met, "")), filters.takes(met, EVENT)), ([], True))
            self.check(f"{unmet}", (list(filters.mistakes(unmet, "")), filters.takes(unmet, EVENT)), ([], False))

    def test_mistakes_of_patterns_are_told(self) -> None:
        deep: Dict[str, Any] = {"a": ["x"]}
        for _ in range(30):
            deep = {"a": deep}
        for pattern, wanted in (
                ({}, "must be an object with at least one member"), ([], "must be an object"),
                ("x", "must be an object"),
                ({"a": "x"}, "a: \"x\" must be a list of what is taken"),
                ({"a": []}, "must be a list of what is taken"),
                ({"a": {"b": 5}}, "a: b: 5 must be a list"), ({"$or": {}}, "$or: {} must be a list of patterns"),
                ({"$or": [{}]}, "$or: {} must be an object"),
                ({"a": [["x"]]}, "must be a value, or an object with one of"),
                ({"a": [{"like": "x"}]}, "must be a value, or an object with one of prefix, suffix"),
                ({"a": [{"prefix": 5}]}, "must be a value"), ({"a": [{"numeric": ["~", 5]}]}, "must be a value"),
                ({"a": [{"numeric": [">", "5"]}]}, "must be a value"), ({"a": [{"numeric": [">"]}]}, "must be a value"),
                ({"a": [{"anything-but": []}]}, "must be a value"), ({"a": [{"exists": "yes"}]}, "must be a value"),
                ({"a": [{"prefix": "x", "suffix": "y"}]}, "must be a value"), (deep, "up to 20 levels")):
            seen = next(filters.mistakes(pattern, ""), "")
            self.check(f"no pattern: {str(pattern)[:40]}", wanted in seen, shown=seen)
        given = {"url": "http://a", "kinesis": "s", "filters": [{"a": "x"}]}
        from lambda_local.up import sources
        self.check("its place", next(sources.mistakes({"functions": [{"name": "f", "stream": given}]}), ""),
                   'function f: stream: filters: number 1: a: "x" must be a list of what is taken, such as ["INSERT"], '
                   "or an object")

    @WITH_MOTO
    def test_random_patterns_take_what_moto_takes(self) -> None:
        """Random patterns and events, as moto's EventBridge has them."""
        from moto.events.models import EventPattern  # type: ignore
        chosen, taken = random.Random(5), 0
        values: List[Any] = ["x", "xy", "", 5, 7.5, None, True]
        matchers = ("x", "", 5, None, {"prefix": "x"}, {"suffix": "y"}, {"exists": True}, {"exists": False},
                    {"numeric": [">", 4, "<", 6]}, {"anything-but": ["x"]}, {"anything-but": "xy"})

        def event(level: int = 0) -> Dict[str, Any]:
            return {name: event(level + 1) if level < 2 and chosen.random() < 0.4 else chosen.choice(values)
                    for name in "abc" if chosen.random() < 0.7}

        def pattern(level: int = 0) -> Dict[str, Any]:
            names = chosen.sample("abc", chosen.randint(1, 2))
            made = {name: pattern(level + 1) if level < 2 and chosen.random() < 0.4 else
                    chosen.sample(matchers, chosen.randint(1, 2)) for name in names}
            if level == 0 and chosen.random() < 0.2:
                made["$or"] = [pattern(1), pattern(1)]
            return made
        for _ in range(20_000):
            given, wanted = event(), pattern()
            seen = filters.takes(wanted, given)
            theirs = EventPattern("", wanted).matches_event(given) if given else seen
            taken += seen
            if seen != theirs and not self.is_known(wanted, given):
                self.check(f"{json.dumps(wanted)} of {json.dumps(given)}", seen, theirs)
        self.check("some are taken, some are not", 1_000 < taken < 19_000, shown=taken)

    @staticmethod
    def is_known(pattern: Dict[str, Any], event: Dict[str, Any]) -> bool:
        """Where moto differs: an object is no value to it, but for `anything-but` and an empty one; True is 1."""
        text = json.dumps(event)
        return "{}" in text or "anything-but" in json.dumps(pattern) and ("{" in text[1:] or "null" in text) or (
            "true" in text)

    def test_data_of_Kinesis_are_filtered_as_JSON(self) -> None:
        def event(data: bytes) -> Dict[str, Any]:
            return {"eventSource": "aws:kinesis", "kinesis": {"data": base64.b64encode(data).decode(),
                                                              "partitionKey": "7"}}
        pattern: Any
        for pattern, data, wanted in (
                ({"data": {"kind": ["order"]}}, b'{"kind": "order"}', True),
                ({"data": {"kind": ["order"]}}, b'{"kind": "other"}', False),
                ({"data": {"kind": ["order"]}}, b"text", False), ({"data": ["text"]}, b"text", True),
                ({"data": ["text"]}, b'{"kind": "order"}', False), ({"partitionKey": ["7"]}, b"\xff", True),
                ({"data": {"kind": ["order"]}}, b"\xff", False), ({"eventSource": ["aws:kinesis"]}, b"x", True)):
            self.check(f"{pattern} of {data!r}", filters.is_taken([pattern], event(data)), wanted)
        self.check("one of several", filters.is_taken([{"data": ["a"]}, {"data": ["b"]}], event(b"b")))
        self.check("none are none", filters.is_taken([], event(b"b")))

    def test_what_a_filter_leaves_out_is_done(self) -> None:
        kept = Kept()
        reader = Driven(FakeServer(a=[1, 2, 3, 4, 5]), checkpoints=kept, filters=[{"n": [{"numeric": ["<=", 3]}]}],
                        batchSize=2).drive(20)
        self.check("those that are taken come", reader.came, [[1, 2], [3]])
        self.check("and the position is after those that are not", kept.positions, {"a": Position("5")})
        self.check("a stream has its patterns", stream(filters=[{"n": [1]}]).filters, ({"n": [1]},))
