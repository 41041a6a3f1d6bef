#!/usr/bin/env python3
"""Serves a handler of an event and its context as Lambda's own Python runtime does, with nothing else installed.

usage: examples/runtime.py [HANDLER] [ADDRESS]
  HANDLER  in Lambda's notation, app.handler or folder/app.handler, found from LAMBDA_TASK_ROOT, else from the folder
           you are in (default: _HANDLER, else one that greets)
  ADDRESS  the environment's, such as 127.0.0.1:9001 (default: AWS_LAMBDA_RUNTIME_API, else this one)

What a handler raises is printed, and reported with its stack. An Init that fails is reported too, and ends the runtime
with status 1. It ends with 0 once its environment shuts down: start it again then, as Lambda does. What the module
`logging` gets is printed in Lambda's form: AWS_LAMBDA_LOG_FORMAT is Text or JSON, and AWS_LAMBDA_LOG_LEVEL is the level
of the root logger."""
import contextlib
import decimal
import inspect
import json
import logging
import os
import re
import select
import socket
import sys
import threading
import time
import traceback
from types import SimpleNamespace

RUNTIME = "/2018-06-01/runtime/"
# Characters, and frames: a report of more than 6 MiB is refused, and its caller waits for the timeout.
MESSAGE_LIMIT, LINE_LIMIT, MOST_FRAMES = 100_000, 1000, 500


NO_ROOT = "Root=1-00000000-000000000000000000000000"


class RuntimeFault(Exception):
    """A fault that the runtime itself names; what led to it, if anything did, is its __cause__."""

    def __init__(self, error_type, message, stack=()):
        super().__init__(message)
        self.error_type, self.stack = error_type, list(stack)


# ---- the Runtime API -------------------------------------------------------------------------------------------------

STATUS_LINE = re.compile(r"HTTP/1\.([01]) ([1-9][0-9]{2})(?: [\t -~\x80-\xff]*)?")
FIELD = re.compile(r"([!#$%&'*+.^_`|~0-9A-Za-z-]+):([\t -~\x80-\xff]*)")
CHUNK = re.compile(rb"([0-9A-Fa-f]{1,8})(?:[ \t]*;[\t -~\x80-\xff]*)?")
MOST_OF_HEAD, MOST_OF_BODY = 64 << 10, 16 << 20  # bytes; an event has at most 6 MiB
MOST_LINES = 100  # heads before the one that counts, and trailers
OF_FRAMING = ("content-length", "transfer-encoding")


class WrongAnswer(Exception):
    """What no Runtime API answers."""


class Headers(dict):
    """By their names, in any case."""

    def __getitem__(self, name):
        return super().__getitem__(name.lower())

    def __contains__(self, name):
        return super().__contains__(name.lower())

    def get(self, name, otherwise=None):
        return super().get(name.lower(), otherwise)


class Connection:
    """An HTTP/1.1 connection (RFC 9112) over a socket of its own: with http.client an exchange takes nearly twice the
    processor time."""

    def __init__(self, address):
        host, _, port = address.rpartition(":")
        self.address, self.came = address, b""  # (what came and was not taken yet)
        self.socket = socket.create_connection((host.strip("[]"), int(port)))
        self.socket.setsockopt(socket.IPPROTO_TCP, socket.TCP_NODELAY, 1)

    def exchange(self, method, path, body, headers):
        """The status, the headers and the body of the answer to a request, and whether the connection is kept."""
        lines = [f"{method} {RUNTIME}{path} HTTP/1.1", f"Host: {self.address}"]
        lines += [f"Content-Length: {len(body)}"] if method == "POST" else []
        lines += [f"{name}: {value}" for name, value in headers.items()]
        try:
            self.socket.sendall("\r\n".join([*lines, "", ""]).encode() + body)
        except ConnectionError:  # (a response that is too large may be refused before it has come)
            pass
        for _ in range(MOST_LINES):
            version, status, headers = self.head()
            if status >= 200:  # (others, such as 100 Continue, come before the answer)
                content = self.body(headers)
                closes = version == "0" or headers.get("Connection", "").lower() == "close" or self.came
                return status, headers, content, not closes
        raise WrongAnswer("it has no end of heads")

    def head(self):
        first, *lines = self.until(b"\r\n\r\n").decode("latin-1").split("\r\n")
        found, headers = STATUS_LINE.fullmatch(first), Headers()
        if not found:
            raise WrongAnswer(f"it begins with {first[:80]!r}")
        for line in lines:
            field = FIELD.fullmatch(line)
            if not field or field[1].lower() in OF_FRAMING and field[1].lower() in headers:
                raise WrongAnswer(f"its head has the line {line[:80]!r}")
            headers.setdefault(field[1].lower(), field[2].strip(" \t"))
        return found[1], int(found[2]), headers

    def body(self, headers):
        length, coding = (headers.get(name) for name in OF_FRAMING)
        if length is None and coding is None:
            return self.rest()
        if coding is None and re.fullmatch("[0-9]{1,9}", length):
            return self.exactly(int(length))
        if length is None and coding.lower() == "chunked":
            return b"".join(self.chunks())
        raise WrongAnswer(f"it has the length {length!r} and the transfer coding {coding!r}")

    def chunks(self):
        left = MOST_OF_BODY
        while left >= 0 and (found := CHUNK.fullmatch(self.until(b"\r\n"))):
            count = int(found[1], 16)
            if not count:
                if any(not self.until(b"\r\n") for _ in range(MOST_LINES)):  # (trailers, up to an empty line)
                    return
                break
            yield self.exactly(count)
            left -= count
            if self.exactly(2) != b"\r\n":
                break
        raise WrongAnswer("its chunks are malformed, or too many")

    def until(self, mark):
        """What comes before this mark."""
        while (at := self.came.find(mark)) < 0:
            if len(self.came) > MOST_OF_HEAD:
                raise WrongAnswer(f"it has more than {MOST_OF_HEAD} bytes without a line's end")
            self.came += self.more(MOST_OF_HEAD)
        found, self.came = self.came[:at], self.came[at + len(mark):]
        return found

    def exactly(self, count):
        if count > MOST_OF_BODY:
            raise WrongAnswer(f"it has more than {MOST_OF_BODY} bytes")
        parts, size = [self.came], len(self.came)
        while size < count:
            parts.append(self.more(count - size))
            size += len(parts[-1])
        whole = b"".join(parts)
        self.came = whole[count:]
        return whole[:count]

    def rest(self):
        """All up to the connection's end."""
        parts, self.came = [self.came, b""], b"closes"
        while sum(map(len, parts)) <= MOST_OF_BODY:
            parts.append(self.socket.recv(MOST_OF_HEAD))
            if not parts[-1]:
                return b"".join(parts)
        raise WrongAnswer(f"it has more than {MOST_OF_BODY} bytes")

    def more(self, most):
        data = self.socket.recv(most)
        if not data:
            raise ConnectionError("the connection has ended before the answer")
        return data


class Environment:
    """The Runtime API of one environment, over a connection that is kept; `request` is the identifier of the invocation
    that is being handled."""

    def __init__(self, address):
        self.address = address if re.fullmatch(r".+:[0-9]+", address) else f"{address}:80"
        self.connection, self.has_answered, self.request = None, False, ""

    def ask(self, method, path, body=b"", headers={}):
        for is_last in (False, True):
            try:
                self.connection = self.connection or Connection(self.address)
                status, replied, content, is_kept = self.connection.exchange(
                    method, path, body.encode() if isinstance(body, str) else body, headers)
                self.has_answered = True
                if not is_kept:
                    self.close()
                return status, replied, content
            except (OSError, WrongAnswer) as fault:
                # (a connection that asks nothing is closed after a while, and a handler may take longer)
                self.close()
                if is_last or isinstance(fault, WrongAnswer):
                    raise

    def close(self):
        if self.connection:
            self.connection.socket.close()
        self.connection = None


class Context:
    """What a handler may ask of its invocation (Developer Guide, "Using the Lambda context object to retrieve Python
    function information")."""

    def __init__(self, headers):
        self.aws_request_id = headers["Lambda-Runtime-Aws-Request-Id"]
        self.invoked_function_arn = headers["Lambda-Runtime-Invoked-Function-Arn"]
        self.function_name = os.environ.get("AWS_LAMBDA_FUNCTION_NAME") or self.invoked_function_arn.split(":")[6]
        self.function_version = os.environ.get("AWS_LAMBDA_FUNCTION_VERSION", "$LATEST")
        self.memory_limit_in_mb = os.environ.get("AWS_LAMBDA_FUNCTION_MEMORY_SIZE", "128")
        self.log_group_name = os.environ.get("AWS_LAMBDA_LOG_GROUP_NAME", f"/aws/lambda/{self.function_name}")
        self.log_stream_name = os.environ.get("AWS_LAMBDA_LOG_STREAM_NAME", "local/[$LATEST]1")
        identity = json.loads(headers.get("Lambda-Runtime-Cognito-Identity", "{}"))
        self.identity = SimpleNamespace(cognito_identity_id=identity.get("cognitoIdentityId"),
                                        cognito_identity_pool_id=identity.get("cognitoIdentityPoolId"))
        self.client_context = None
        if client_context := json.loads(headers.get("Lambda-Runtime-Client-Context", "null")):
            client = SimpleNamespace(**client_context.get("client", {}))
            self.client_context = SimpleNamespace(client=client, custom=client_context.get("custom"),
                                                  env=client_context.get("env"))
        self.deadline = int(headers["Lambda-Runtime-Deadline-Ms"])

    clock_file = None  # of `./lambda_local up`

    @staticmethod
    def clock():
        """What the clock reads by which the invocation times out: that of `./lambda_local up` can be paused, and moved
        forward."""
        try:
            with open(Context.clock_file, encoding="ascii") as file:
                moment, since, runs = map(int, file.read().split())
            return moment + (time.monotonic_ns() - since) // 1_000_000 * runs
        except (TypeError, OSError, ValueError):  # (there is none, or not any more)
            return int(1000 * time.time())

    def get_remaining_time_in_millis(self):
        return max(0, self.deadline - self.clock())

    def log(self, text):
        sys.stdout.write(str(text))


# ---- the log ---------------------------------------------------------------------------------------------------------

TEXT_FORM = "[%(levelname)s]\t%(asctime)s.%(msecs)03dZ\t%(aws_request_id)s\t%(message)s"
# What each record has: in JSON only what a call of the logger adds (`extra`) is a member beside those of Lambda.
RECORD_MEMBERS = {*vars(logging.makeLogRecord({})), "aws_request_id", "message", "asctime", "taskName"}


class JsonForm(logging.Formatter):
    """Lambda's JSON of a record (Developer Guide, "Using structured JSON logs with Python")."""

    def format(self, record):
        raised, fault, trace = record.exc_info or (None, None, None)
        told = {"timestamp": timestamp(record.created), "level": record.levelname, "message": record.getMessage(),
                "logger": record.name,
                "stackTrace": traceback.format_tb(trace) if trace else None,
                "errorType": raised.__name__ if raised else None, "errorMessage": str(fault) if fault else None,
                "requestId": record.aws_request_id or None,
                "location": f"{record.pathname}:{record.funcName}:{record.lineno}" if raised else None}
        told.update((name, value) for name, value in vars(record).items()
                    if name not in RECORD_MEMBERS and name not in told)
        return json.dumps({name: value for name, value in told.items() if value is not None}, default=str)


class LogHandler(logging.Handler):
    """The root logger's handler, as Lambda's runtime installs it: it prints to standard output, with the identifier of
    the invocation. `request` returns that identifier, empty if there is none."""

    def __init__(self, request, as_json=False):
        super().__init__()
        self.request = request
        form = JsonForm() if as_json else logging.Formatter(TEXT_FORM, "%Y-%m-%dT%H:%M:%S")
        form.converter = time.gmtime
        self.setFormatter(form)
        self.addFilter(self.identify)

    def identify(self, record):
        record.aws_request_id = self.request()
        return True

    def emit(self, record):
        try:
            sys.stdout.write(self.format(record) + "\n")
        except Exception:
            self.handleError(record)


def timestamp(seconds):
    return time.strftime("%Y-%m-%dT%H:%M:%SZ", time.gmtime(seconds))


def logs_json():
    return os.environ.get("AWS_LAMBDA_LOG_FORMAT", "").upper() == "JSON"


def log_level():
    """The level that the root logger gets; none if it keeps its own, WARNING. (With JSON, Lambda's default is INFO.)"""
    name = os.environ.get("AWS_LAMBDA_LOG_LEVEL", "").upper() or ("INFO" if logs_json() else "")
    level = logging.getLevelName({"TRACE": "DEBUG"}.get(name, name))
    return level if isinstance(level, int) else None


def set_up_logging(request):
    """Before the handler's module is imported: so logging.basicConfig changes nothing there, as on Lambda."""
    logger = logging.getLogger()
    logger.addHandler(LogHandler(request, logs_json()))
    if log_level() is not None:
        logger.setLevel(log_level())


def marks_invocations():
    """A function that begins the lines of an invocation: for `./lambda_local up`, by what nothing else prints (in
    LAMBDA_LOCAL_MARK, which the handler does not see); else it does nothing."""
    mark = os.environ.pop("LAMBDA_LOCAL_MARK", None)
    if not mark:
        return lambda request: None
    output = os.dup(1)  # (whatever the handler does to its own)

    def begin(request):
        while True:
            try:
                os.write(output, f"\0{mark}{request}\n".encode())
            except BlockingIOError:  # (a child has made it so, and it is full)
                select.select([], [output], [])
                continue
            except OSError:  # (nobody reads it any more)
                pass
            return
    return begin


# ---- the handler -----------------------------------------------------------------------------------------------------

def greet(event, context):
    return {"greeting": f"Hello, {event.get('name', 'world')}!"}


def load(name):
    """The handler of that name, or a fault as Lambda names it. (`app:handler` is another notation for app.handler.)"""
    module_name, dot, function_name = name.replace(":", ".").rpartition(".")
    if not dot:
        raise RuntimeFault("Runtime.MalformedHandlerName",
                           f"Bad handler '{name}': not enough values to unpack (expected 2, got 1)")
    path = module_name.replace("/", ".")
    if path.split(".")[0] in sys.builtin_module_names:
        raise RuntimeFault("Runtime.BuiltInModuleConflict",
                           f"Cannot use built-in module {module_name} as a handler module")
    try:
        __import__(path)  # (importlib's function would leave its own frames in each stack)
    except ImportError as fault:
        raise RuntimeFault("Runtime.ImportModuleError", f"Unable to import module '{module_name}': {fault}") from fault
    except SyntaxError as fault:
        stack = [f'  File "{fault.filename}" Line {fault.lineno}\n    {fault.text}']
        raise RuntimeFault("Runtime.UserCodeSyntaxError", f"Syntax error in module '{module_name}': {fault}",
                           stack) from fault
    handler = getattr(sys.modules[path], function_name, None)
    if handler is None:
        raise RuntimeFault("Runtime.HandlerNotFound", f"Handler '{function_name}' missing on module '{module_name}'")
    return handler


def with_context(handler):
    """The handler as Lambda calls it; one that takes an event alone is called with that."""
    try:
        inspect.signature(handler).bind(None, None)
    except TypeError:
        return lambda event, context: handler(event)
    except ValueError:  # a callable without a signature
        pass
    return handler


def user_stack(fault):
    """The traceback without this program's own frames."""
    frame = fault.__traceback__
    while frame and frame.tb_frame.f_code.co_filename == __file__:
        frame = frame.tb_next
    return frame


def print_trace(fault, report):
    if logs_json():
        print(json.dumps({"timestamp": timestamp(time.time()), "log_level": "ERROR", **report}), flush=True)
        return
    cause = fault.__cause__ if isinstance(fault, RuntimeFault) else fault
    lines = traceback.format_exception(type(cause), cause, user_stack(cause)) if cause else []
    if isinstance(fault, RuntimeFault):
        lines.append(f"{fault.error_type}: {fault}\n")
    print(*lines, sep="", end="", file=sys.stderr, flush=True)


def report_of(fault, request):
    """The fault as Lambda's Python runtime reports it."""
    if isinstance(fault, RuntimeFault):
        error_type, stack = fault.error_type, fault.stack
    else:
        error_type, stack = type(fault).__name__, traceback.format_list(traceback.extract_tb(user_stack(fault)))
    return {"errorMessage": message_of(fault)[:MESSAGE_LIMIT], "errorType": error_type[:MESSAGE_LIMIT],
            "requestId": request,
            "stackTrace": [line[:LINE_LIMIT] for line in stack[-MOST_FRAMES:]]}


def message_of(fault):
    try:
        return str(fault)
    except Exception as of_its_own:
        return f"(its message cannot be had: {type(of_its_own).__name__})"


def type_header(report):
    """The error's type as a header: a category and a reason, such as Runtime.KeyError. What no header has, or is very
    long, is Runtime.Unhandled."""
    error_type = report["errorType"]
    if not re.fullmatch("[!-~](?:[ -~]*[!-~])?", error_type) or len(error_type) > LINE_LIMIT:
        error_type = "Unhandled"
    return {"Lambda-Runtime-Function-Error-Type": error_type if "." in error_type else f"Runtime.{error_type}"}


def read(payload):
    try:
        return json.loads(payload)
    except (ValueError, RecursionError) as fault:
        raise RuntimeFault("Runtime.UnmarshalError", f"Unable to unmarshal input: {fault}") from None


def text_of(output):
    try:
        return json.dumps(output, default=number_of)
    except Exception as fault:
        raise RuntimeFault("Runtime.MarshalError", f"Unable to marshal response: {fault}") from None


def number_of(value):
    """As Lambda's runtime does: DynamoDB's numbers are decimals."""
    if isinstance(value, decimal.Decimal):
        return float(value)
    raise TypeError(f"Object of type {type(value).__name__} is not JSON serializable")


def outcome(handler, payload, headers):
    """What an invocation comes to: "response" or "error", and the body and headers to post."""
    try:
        return "response", text_of(handler(read(payload), Context(headers))), {}
    except Exception as fault:
        return failure(fault, headers["Lambda-Runtime-Aws-Request-Id"])


def failure(fault, request):
    report = report_of(fault, request)
    with contextlib.suppress(Exception):  # (whatever the handler has done to the streams)
        print_trace(fault, report)
    return "error", json.dumps(report), type_header(report)


def trace_of(request, headers):
    """The trace of an invocation: its caller's; if that gave none (lambda_local then gives a root of zeros), one of its
    own, made of its identifier. The SDKs of AWS send it with what the handler invokes, which is known by it as the
    handler's."""
    given, digits = headers.get("Lambda-Runtime-Trace-Id"), request.replace("-", "")
    if given and not given.startswith(NO_ROOT) or not re.fullmatch("[0-9a-f]{32}", digits):
        return given
    return f"Root=1-{digits[:8]}-{digits[8:]};Sampled=0"


def serve(environment, handler, begin, outcome=outcome, sets_trace=True):
    """Handles invocations until the environment shuts down. `begin` is called before each."""
    while True:
        status, headers, payload = environment.ask("GET", "invocation/next")
        if status == 403:  # an earlier process took the invocation that is still open here
            time.sleep(0.05)
            continue
        if status != 200:  # 500, the container error: the runtime should exit promptly
            return
        request = headers.get("Lambda-Runtime-Aws-Request-Id", "")
        if not re.fullmatch("[!-~]+", request):
            raise WrongAnswer("an invocation has no identifier")
        trace = trace_of(request, headers)
        if sets_trace:
            os.environ.pop("_X_AMZN_TRACE_ID", None)
        if trace and sets_trace:
            os.environ["_X_AMZN_TRACE_ID"] = trace
        environment.request = request
        begin(request)
        kind, body, headers = outcome(handler, payload, headers)
        status, _, refusal = environment.ask("POST", f"invocation/{request}/{kind}", body, headers)
        if status == 500:  # the container error, as for a Next
            return
        if status != 202:  # 413, too large, or 403, too late: the environment goes on with the next invocation
            print(f"runtime.py: the {kind} to {request} is refused: {status} {refusal.decode()}", file=sys.stderr,
                  flush=True)


class Debugged:
    """Tells `./lambda_local up` while a client of a debugger is attached, by a file: the clock is paused then. Costs
    nothing until pydevd is imported, on which debugpy and PyCharm rest: then a thread looks."""
    BETWEEN = 0.1  # seconds

    def __init__(self, path):
        self.path = path
        if "pydevd" in sys.modules:
            self.begin()
        else:
            sys.meta_path.insert(0, self)

    def find_spec(self, name, path=None, target=None):
        """(as one that finds modules: it is asked for each that is imported for the first time)"""
        if name == "pydevd" and self in sys.meta_path:
            sys.meta_path.remove(self)
            self.begin()

    def begin(self):
        looking = threading.Thread(target=self.look, name="debugged", daemon=True)
        looking.pydev_do_not_trace = looking.is_pydev_daemon_thread = True  # (a debugger that stands lets it go on)
        looking.start()

    def look(self):
        was_attached, never = False, threading.Event()
        while True:
            if self.is_attached() != was_attached:
                was_attached = not was_attached
                with contextlib.suppress(OSError):
                    open(self.path, "w").close() if was_attached else os.unlink(self.path)
            never.wait(self.BETWEEN)

    @staticmethod
    def is_attached():
        found = sys.modules.get("pydevd")
        try:
            return bool(found._is_attached() if hasattr(found, "_is_attached") else getattr(found, "connected", False))
        except Exception:  # (it is only half imported, or another one)
            return False


def init(environment, name):
    """The handler; none if there is a fault in its module, which is reported."""
    sys.path[0] = os.environ.get("LAMBDA_TASK_ROOT") or os.getcwd()  # in place of this program's folder
    os.environ.setdefault("AWS_EXECUTION_ENV", "AWS_Lambda_python{}.{}".format(*sys.version_info))
    set_up_logging(lambda: environment.request)
    try:
        return with_context(load(name) if name else greet)
    except Exception as fault:
        _, report, headers = failure(fault, "")
        environment.ask("POST", "init/error", report, headers)
        return None


def main():
    sys.stdout.reconfigure(line_buffering=True)
    words = sys.argv[1:]
    addresses = [word for word in words if re.fullmatch(r".*:\d+", word)]
    names = [word for word in words if word not in addresses]
    if len(addresses) > 1 or len(names) > 1 or names[:1] in (["-h"], ["--help"]):
        print(__doc__)
        return 0 if len(words) == 1 else 2
    address = (addresses or [os.environ.get("AWS_LAMBDA_RUNTIME_API") or "127.0.0.1:9001"])[0]
    Context.clock_file = os.environ.pop("LAMBDA_LOCAL_CLOCK", None)
    environment, begin = Environment(address), marks_invocations()
    if Context.clock_file:
        Debugged(f"{Context.clock_file}.debugger.{os.getpid()}")
    try:
        handler = init(environment, (names or [os.environ.get("_HANDLER")])[0])
        if handler is None:
            return 1
        serve(environment, handler, begin)
    except WrongAnswer as fault:
        print(f"runtime.py: what {address} answers is not of the Runtime API: {fault}", file=sys.stderr)
        return 1
    except OSError as fault:
        if not environment.has_answered:
            print(f"runtime.py: no Runtime API at {address}: {fault}: start the service first, and name its "
                  f"environment's port",
                  file=sys.stderr)
            return 1
    return 0  # (it answered before: the service has stopped)


if __name__ == "__main__":
    sys.exit(main())
