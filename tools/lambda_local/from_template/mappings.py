"""AWS::Lambda::EventSourceMapping: a queue or a stream of a function, as a resource of its own."""
from typing import List

from ..configuration import Members
from . import queues, streams
from .messages import excerpt, tell
from .named import function_of, resources_of
from .objects import Object
from .values import Scope

MAPPING = "AWS::Lambda::EventSourceMapping"


def add_mappings(functions: List[Members], scope: Scope) -> None:
    for key, properties in resources_of(MAPPING, scope):
        given = Object(properties, key, scope, tell)
        source = scope.evaluate_or_reason(given.raw("EventSourceArn")).value
        made = function_of(scope.evaluate_or_reason(given.raw("FunctionName")).value, functions, scope)
        stream = streams.kind_of(source)
        if made is None:
            tell(f"ignores {key}, {MAPPING}: its function is not here")
        elif stream is not None:
            given.where = f"{key} of {made['name']}"
            found = streams.mapped(given, *stream, scope, tell)
            streams.put(made, "stream", [] if found is None else [found])
        elif isinstance(source, str) and queues.ARN.fullmatch(source):
            queue = queues.mapped(given, "EventSourceArn", f"{key} of {made['name']}", scope, tell)
            queues.put(made, [] if queue is None else [queue], tell)
        else:
            tell(f"ignores {key}, {MAPPING}: {excerpt(source)} is not the ARN of an SQS queue, nor of a stream of "
                 "Kinesis or DynamoDB")
