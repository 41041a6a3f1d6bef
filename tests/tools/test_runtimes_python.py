"""Checks examples/runtime.py against a service. What is expected is what the Developer Guide and the sources of AWS's
own runtime say. The program is LAMBDA_LOCAL_PROGRAM, else ./lambda_local."""
import json
import os
import re
import sys
import tempfile
from typing import Dict, Tuple

from tests.library.runtimes_kit import EXAMPLES, TIME, TRACE, Running, RuntimeCase, report

PYTHON = [sys.executable, os.path.join(EXAMPLES, "runtime.py")]

PYTHON_APP = '''import json, os, sys, time, decimal

class Odd(Exception):
    pass

def inner(event):
    return event["missing"]

def handler(event, context):
    do = event.get("do")
    if do == "key":
        return inner(event)
    if do == "cause":
        try:
            inner(event)
        except KeyError as fault:
            raise Odd("no such order") from fault
    if do == "set":
        return {1, 2}
    if do == "decimal":
        return {"price": decimal.Decimal("1.5")}
    if do == "long":
        raise Odd("x" * 7000000)
    if do == "large":
        return "x" * 7000000
    if do == "late":
        time.sleep(1.5)
    if do == "variables":
        return [os.environ.get("_X_AMZN_TRACE_ID"), os.environ["AWS_EXECUTION_ENV"], os.getpid()]
    if do == "context":
        names = ("aws_request_id", "invoked_function_arn", "function_name", "function_version", "memory_limit_in_mb",
                 "log_group_name", "log_stream_name", "client_context")
        left = context.get_remaining_time_in_millis()
        return {**{name: getattr(context, name) for name in names}, "left": 0 < left <= 60000,
                "identity": context.identity.cognito_identity_id}
    return os.getpid()

def alone(event):
    return "alone"

def wrapped(*given):
    return len(given)

NOT_CALLABLE = None
'''

# What awslambdaric says of each (its bootstrap.py): handler, files, type, start of the message.
PYTHON_INITS = [
    ("app.handler", {}, "Runtime.ImportModuleError", "Unable to import module 'app': No module named 'app'"),
    ("app.handler", {"app.py": "import nothing_here\n"}, "Runtime.ImportModuleError",
     "Unable to import module 'app': No module named 'nothing_here'"),
    ("pkg/app.handler", {}, "Runtime.ImportModuleError", "Unable to import module 'pkg/app': No module named 'pkg'"),
    ("app.handler", {"app.py": "def handler(event, context):\n    return (\n"}, "Runtime.UserCodeSyntaxError",
     "Syntax error in module 'app': "),
    ("app.other", {"app.py": PYTHON_APP}, "Runtime.HandlerNotFound", "Handler 'other' missing on module 'app'"),
    ("app", {"app.py": PYTHON_APP}, "Runtime.MalformedHandlerName",
     "Bad handler 'app': not enough values to unpack (expected 2, got 1)"),
    ("sys.handler", {}, "Runtime.BuiltInModuleConflict", "Cannot use built-in module sys as a handler module"),
    ("app.handler", {"app.py": "import os\nTABLE = os.environ['TABLE_OF_NO_ONE']\n"}, "KeyError", "'TABLE_OF_NO_ONE'"),
]

# Its standard error is closed: what is printed goes to standard output, as Lambda's own does.
PYTHON_LOG = '''import logging, os, sys
sys.stderr = open(os.devnull, "w")
logging.warning("at the import")
logging.basicConfig(level=logging.DEBUG, format="changes nothing: %(message)s")
logger = logging.getLogger()
if os.environ.get("SET"):
    logger.setLevel(os.environ["SET"])

def handler(event, context):
    logger.debug("debugged")
    logger.info("order %s accepted", event["order"])
    logging.getLogger("shop").warning("few are left", extra={"left": 3})
    try:
        {}["missing"]
    except KeyError:
        logger.exception("no price")
    return context.aws_request_id
'''
TRACEBACK = (r"Traceback \(most recent call last\):\n"
             r"  File \"\S+app\.py\", line 14, in handler\n    \{\}\[\"missing\"\]\n"
             r"(?:\s+[~^]+\n)?KeyError: 'missing'\n")


class RuntimesPython(RuntimeCase):
    def test_an_error_is_reported_with_type_message_and_stack(self):
        with Running([*PYTHON, "app.handler"], {"app.py": PYTHON_APP}) as running:
            failed, told = running.invoke({"do": "key"})
            self.check("Python: an error's members", (failed, sorted(told)),
                       (True, ["errorMessage", "errorType", "requestId", "stackTrace"]))
            self.check("Python: its message and type", report(told, "errorMessage", "errorType"),
                       ("'missing'", "KeyError"))
            stack = [f'  File "{running.folder}/app.py", line 12, in handler\n    return inner(event)\n',
                     f'  File "{running.folder}/app.py", line 7, in inner\n    return event["missing"]\n']
            # (newer Pythons mark the place in a line of its own)
            self.check("Python: its stack, as traceback.format_list gives it", [re.sub(r"\n\s+[\^~]+\n", "\n",
                    line) for line in told["stackTrace"]], stack)
            self.check("Python: its request", bool(re.fullmatch(r"[0-9a-f-]{36}", told["requestId"])))
            printed = running.output()
            self.check("Python: the trace is printed",
                       "Traceback (most recent call last):" in printed and "\nKeyError: 'missing'\n" in printed)
            self.check("Python: without the runtime's own frames", "runtime.py" not in running.output())
            running.invoke({"do": "cause"})
            printed = running.output()
            self.check("Python: a cause is printed too",
                       "The above exception was the direct cause" in printed and "app.Odd: no such order" in printed)
            failed, told = running.invoke({"do": "set"})
            self.check("Python: an output that is no JSON", (failed, *report(told, "errorType", "errorMessage")),
                       (True, "Runtime.MarshalError",
                        "Unable to marshal response: Object of type set is not JSON serializable"))
            self.check("Python: and is printed in one line", running.output().endswith(
                "\nRuntime.MarshalError: Unable to marshal response: Object of type set is not JSON serializable\n"))
            self.check("Python: a decimal is a number", running.invoke({"do": "decimal"}), (False, {"price": 1.5}))
            failed, told = running.invoke({"do": "long"})
            self.check("Python: a report that would be too long is cut", (failed, told["errorType"]), (True, "Odd"))
            self.too_large("Python", running)

    def test_the_context_has_what_Lambda_gives(self):
        with Running([*PYTHON, "app.handler"], {"app.py": PYTHON_APP}) as running:
            failed, told = running.invoke({"do": "context"})
            self.check("Python: the context", {**told, "aws_request_id": len(told["aws_request_id"])} if not failed
                       else told, {
                "aws_request_id": 36, "invoked_function_arn": "arn:aws:lambda:us-east-2:123456789012:function:f",
                "function_name": "f",
                "function_version": "$LATEST", "memory_limit_in_mb": "128", "log_group_name": "/aws/lambda/f",
                "log_stream_name": "local/[$LATEST]1",
                "client_context": None, "left": True, "identity": None})
            first = running.invoke({"do": "variables"}, **{"X-Amzn-Trace-Id": TRACE})[1]
            second = running.invoke({"do": "variables"}, **{"X-Amzn-Trace-Id": TRACE.replace("Root=1-5",
                                                                                             "Root=1-6")})[1]
            self.check("Python: each invocation's own trace", (first[0], second[0]),
                       (TRACE, TRACE.replace("Root=1-5", "Root=1-6")))
            self.check("Python: AWS_EXECUTION_ENV", bool(re.fullmatch(r"AWS_Lambda_python3\.\d+", first[1])))

    def test_a_handler_is_found_by_each_form_of_its_name(self):
        files = {"app.py": PYTHON_APP, "pkg/app.py": PYTHON_APP, "pkg/__init__.py": ""}
        for name in ("app.handler", "app:handler", "pkg/app.handler", "pkg.app.handler", "pkg.app:handler"):
            with Running([*PYTHON, name], files) as running:
                self.check(f"Python: {name}", running.invoke({})[1], running.runtime.pid)

    def test_the_variable_HANDLER_names_the_handler(self):
        files = {"app.py": PYTHON_APP, "pkg/app.py": PYTHON_APP, "pkg/__init__.py": ""}
        with Running(PYTHON, files, _HANDLER="pkg/app.handler") as running:
            self.check("Python: _HANDLER", running.invoke({})[1], running.runtime.pid)

    def test_LAMBDA_TASK_ROOT_has_the_handler(self):
        files = {"app.py": PYTHON_APP, "pkg/app.py": PYTHON_APP, "pkg/__init__.py": ""}
        with tempfile.TemporaryDirectory() as elsewhere:
            with Running([*PYTHON, "app.handler"], files) as task:
                with Running([*PYTHON, "app.handler"], run_from=elsewhere, LAMBDA_TASK_ROOT=task.folder) as running:
                    self.check("Python: LAMBDA_TASK_ROOT", running.invoke({})[1], running.runtime.pid)

    def test_a_handler_may_take_the_event_alone_or_any_arguments(self):
        files = {"app.py": PYTHON_APP, "pkg/app.py": PYTHON_APP, "pkg/__init__.py": ""}
        with Running([*PYTHON, "app.alone"], files) as running:
            self.check("Python: a handler of the event alone", running.invoke({})[1], "alone")
        with Running([*PYTHON, "app.wrapped"], files) as running:
            self.check("Python: a handler of any arguments gets both", running.invoke({})[1], 2)

    def test_without_a_handler_it_greets(self):
        with Running([*PYTHON]) as running:
            self.check("Python: without a handler it greets", running.invoke({"name": "Ada"}),
                       (False, {"greeting": "Hello, Ada!"}))
            self.check("Python: again and again", running.invoke({}), (False, {"greeting": "Hello, world!"}))

    def test_a_failed_init_is_reported_by_its_kind(self):
        for name, files, kind, message in PYTHON_INITS:
            with Running([*PYTHON, name], files) as running:
                told, status, printed = running.init_report()
                what = f"Python: Init of {name}, {kind}"
                self.check(what, (status, told and told["errorType"],
                                  told and told["errorMessage"].startswith(message)),
                           (1, kind, True))
                self.check(what + ": printed", kind in printed and message in printed and "runtime.py" not in printed,
                           shown=printed)
                if kind == "Runtime.UserCodeSyntaxError":
                    self.check(what + ": its place",
                               bool(re.match(r'  File "\S+/app.py" Line 2\n\s+return \(', told["stackTrace"][0])))
                if kind == "KeyError":
                    self.check(what + ": its stack",
                               [line.split(", ", 1) for line in told["stackTrace"][0].split("\n")[:1]],
                               [[f'  File "{running.folder}/app.py"', "line 2, in <module>"]])
                self.check(what + ": one report, and a caller is told", running.service.history().count("init-failure"),
                           1)

    def test_lines_of_logging_are_those_of_awslambdaric(self):
        """The lines of the module logging, as awslambdaric prints them."""
        levels: Tuple[Tuple[str, Dict[str, str], Tuple[str, ...]], ...] = (
            ("without a level", {}, ()), ("at the level of the code", {"SET": "INFO"}, ("INFO",)),
            ("AWS_LAMBDA_LOG_LEVEL", {"AWS_LAMBDA_LOG_LEVEL": "TRACE"}, ("DEBUG", "INFO")),
            ("an unknown level", {"AWS_LAMBDA_LOG_LEVEL": "LOUD"}, ()))
        for name, variables, shown in levels:
            with Running([*PYTHON, "app.handler"], {"app.py": PYTHON_LOG}, **variables) as running:
                request = running.invoke({"order": 7})[1]
                begun = lambda level: rf"\[{level}\]\t{TIME}\.\d\d\dZ\t{request}\t"
                lower = {"DEBUG": begun("DEBUG") + "debugged\n", "INFO": begun("INFO") + "order 7 accepted\n"}
                wanted = (rf"\[WARNING\]\t{TIME}\.\d\d\dZ\t\tat the import\n"
                          + "".join(lower[level] for level in ("DEBUG", "INFO") if level in shown)
                          + begun("WARNING") + "few are left\n" + begun("ERROR") + "no price\n" + TRACEBACK)
                self.check(f"Python: logging, {name}", bool(re.fullmatch(wanted, running.output())),
                           shown=running.output())

    def test_lines_of_logging_as_JSON_have_their_moment(self):
        with Running([*PYTHON, "app.handler"], {"app.py": PYTHON_LOG}, AWS_LAMBDA_LOG_FORMAT="JSON") as running:
            request = running.invoke({"order": 7})[1]
            lines = [json.loads(line) for line in running.output().splitlines()]
            stack, location = lines[-1].pop("stackTrace"), lines[-1].pop("location")
            self.check("Python: logging as JSON, each with its moment",
                       [bool(re.fullmatch(TIME + "Z", line.pop("timestamp"))) for line in lines], 4 * [True])
            self.check("Python: logging as JSON", lines, [
                {"level": "WARNING", "message": "at the import", "logger": "root"},
                {"level": "INFO", "message": "order 7 accepted", "logger": "root", "requestId": request},
                {"level": "WARNING", "message": "few are left", "logger": "shop", "requestId": request, "left": 3},
                {"level": "ERROR", "message": "no price", "logger": "root", "requestId": request,
                 "errorType": "KeyError",
                 "errorMessage": "'missing'"}])
            self.check("Python: and where an exception is from", (len(stack), location.endswith("app.py:handler:16")),
                       (1, True))

    def test_an_error_as_JSON_has_its_report(self):
        with Running([*PYTHON, "app.handler"], {"app.py": PYTHON_APP}, AWS_LAMBDA_LOG_FORMAT="JSON") as running:
            told = running.invoke({"do": "key"})[1]
            line = json.loads(running.output())
            line.pop("timestamp")
            self.check("Python: an error as JSON has its report", line, {"log_level": "ERROR", **told})

    def test_a_response_after_the_timeout_is_refused_and_the_next_one_served(self):
        self.late("Python", [*PYTHON, "app.handler"], {"app.py": PYTHON_APP})

    def test_it_ends_at_the_container_error_and_at_a_stop(self):
        self.ends("Python", PYTHON, {})

    def test_a_connection_that_was_closed_meanwhile_is_made_anew(self):
        self.closed_connections("Python", PYTHON)
