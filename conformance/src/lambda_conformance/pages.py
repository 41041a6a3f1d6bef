"""The public pages by which the checks judge."""
from typing import Callable, NamedTuple

GUIDE = "https://docs.aws.amazon.com/lambda/latest/dg/"
RFC = "https://www.rfc-editor.org/rfc/"


class Page(NamedTuple):
    """A page, and the part of it that has the rule."""
    title: str
    part: str
    address: str

    def __str__(self) -> str:
        return f"{self.title}, \"{self.part}\" ({self.address})"


def _guide(title: str, name: str) -> Callable[[str], Page]:
    """Makes the pages that are the parts of a page of the Developer Guide."""
    return lambda part: Page(f"Lambda Developer Guide, {title}", part, f"{GUIDE}{name}.html")


_runtime_api = _guide("Using the Lambda runtime API for custom runtimes", "runtimes-api")
_custom = _guide("Building a custom runtime for AWS Lambda", "runtimes-custom")
_life = _guide("Understanding the Lambda execution environment lifecycle", "lambda-runtime-environment")
_quotas = _guide("Lambda quotas", "gettingstarted-limits")
_extensions = _guide("Using the Lambda Extensions API to create extensions", "runtimes-extensions-api")
_logs = _guide("Using the Lambda Logs API", "runtimes-logs-api")
_telemetry = _guide("Accessing real-time telemetry data for extensions using the Telemetry API", "telemetry-api")


def _rfc(number: int, section: str, title: str) -> Page:
    return Page(f"RFC {number}", f"{section}. {title}", f"{RFC}rfc{number}#section-{section}")


NEXT = _runtime_api("Next invocation")
RESPONSE = _runtime_api("Invocation response")
INIT_ERROR = _runtime_api("Initialization error")
INVOKE_ERROR = _runtime_api("Invocation error")
INITIALIZATION_TASKS = _custom("Initialization tasks")
PROCESSING_TASKS = _custom("Processing tasks")
STREAMING = _custom("Implementing response streaming in a custom runtime")
INIT_PHASE = _life("Init phase")
INVOKE_PHASE = _life("Invoke phase")
INVOKE_FAILURES = _life("Failures during the invoke phase")
SHUTDOWN_PHASE = _life("Shutdown phase")
REUSE = _life("Lambda execution environment lifecycle")
QUOTAS = _quotas("Function configuration, deployment, and execution")

REGISTER = _extensions("Register")
EXTENSION_NEXT = _extensions("Next")
EXTENSION_INIT_ERROR = _extensions("Init error")
EXTENSION_EXIT_ERROR = _extensions("Exit error")
EXTENSION_INVOKE = _extensions("Invoke phase")
EXTENSION_SHUTDOWN = _extensions("Shutdown phase")
EXTENSION_INIT = _extensions("Init phase")
TELEMETRY = _telemetry("Creating extensions using the Telemetry API")
LOGS = _logs("Log messages")

JSON_GRAMMAR = _rfc(8259, "2", "JSON Grammar")
JSON_NUMBERS = _rfc(8259, "6", "Numbers")
JSON_STRINGS = _rfc(8259, "7", "Strings")
JSON_CHARACTERS = _rfc(8259, "8.2", "Unicode Characters")
JSON_TEXTS = _rfc(8259, "8.1", "Character Encoding")
JSON_NESTING = _rfc(8259, "9", "Parsers")
PERSISTENCE = _rfc(9112, "9.3", "Persistence")
RETRYING = _rfc(9112, "9.3.1", "Retrying Requests")
FRAMING = _rfc(9112, "6.3", "Message Body Length")
CHUNKED = _rfc(9112, "7.1", "Chunked Transfer Coding")
INCOMPLETE = _rfc(9112, "8", "Handling Incomplete Messages")
CLOSING = _rfc(9112, "9.6", "Tear-down")
STATUS_LINE = _rfc(9112, "4", "Status Line")
FIELD_LINES = _rfc(9112, "5", "Field Syntax")
FIELD_NAMES = _rfc(9110, "5.1", "Field Names")
INTERIM = _rfc(9110, "15.2", "Informational 1xx")
