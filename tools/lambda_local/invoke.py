"""Invokes a function of a service that runs, and prints what it returns.

  lambda_local invoke greet '{"name": "Ada"}'   JSON on the command line
  lambda_local invoke greet event.json          a file with the payload; `-` is standard input
  lambda_local invoke greet --sample s3         an event as a service of AWS sends it
  lambda_local invoke greet --sample sqs --set 'Records[0].body="text"'
                                                the same with another value, in JSON, at a path that it has
  lambda_local invoke greet                     {}

The service is that of AWS_ENDPOINT_URL_LAMBDA, which `lambda_local up` prints and sets, else http://127.0.0.1:9000.
NAME is the name of the function or its ARN. What the function returns, or its error, goes to standard output; all else
to standard error.

Exit statuses: 0, the function has returned, or its event was accepted; 1, it has failed; 2, a fault in the arguments;
3, the service has refused, for example since no environment is free; 4, the service cannot be reached."""
import argparse
import base64
import binascii
import datetime
import json
import os
import sys
from typing import Dict
from urllib.parse import quote

from . import outgoing
from .endpoint import Answer, add_option, asked
from .outgoing import printable_lines
from .samples import MOST_BYTES, sample, samples, with_values
from .service import Fault
from .usage import parser_of

USAGE = "[OPTION..] NAME [PAYLOAD | FILE | - | --sample KIND]"
LONGEST_SECONDS = 1000  # of an invocation: 900, and what it waits for


# ---- the payload -----------------------------------------------------------------------------------------------------

def schedule_event(now: datetime.datetime) -> bytes:
    """The event of a schedule that is due at this moment."""
    event = json.loads(sample("schedule"))
    event["time"] = now.strftime("%Y-%m-%dT%H:%M:%SZ")
    return json.dumps(event).encode()


def refuse_constant(name: str) -> object:
    raise ValueError(f"{name} is not JSON")


def is_json(text: str) -> bool:
    try:
        json.loads(text, parse_constant=refuse_constant)
        return True
    except (ValueError, RecursionError):
        return False


def whole(path: str) -> bytes:
    """What a file or standard input has."""
    try:
        with open(sys.stdin.fileno() if path == "-" else path, "rb", closefd=path != "-") as file:
            text = file.read(MOST_BYTES + 1)
    except OSError as fault:
        raise Fault(2, f"{path}: {fault.strerror}") from None
    if len(text) > MOST_BYTES:
        raise Fault(2, f"{path}: it has more than {MOST_BYTES} bytes, which Lambda takes at most")
    return text


def payload_of(options: argparse.Namespace) -> bytes:
    return with_values(given_payload(options), options.set)


def given_payload(options: argparse.Namespace) -> bytes:
    if (options.payload is not None) + (options.sample is not None) + options.now > 1:
        raise Fault(2, "write one of PAYLOAD, FILE, -, --sample and --now")
    if options.sample is not None:
        return sample(options.sample)
    if options.now:
        return schedule_event(datetime.datetime.now(datetime.timezone.utc))
    if options.payload is None:
        return b"{}"
    if options.payload != "-" and is_json(options.payload):
        return os.fsencode(options.payload)
    if options.payload != "-" and not os.path.isfile(options.payload):
        raise Fault(2, f"{options.payload[:80]} is neither JSON nor a file: write for example '{{\"name\": \"Ada\"}}'")
    text = whole(options.payload)
    try:
        json.loads(text, parse_constant=refuse_constant)
    except UnicodeDecodeError:
        raise Fault(2, f"{options.payload}: this is not JSON: it is not UTF-8") from None
    except ValueError as fault:
        raise Fault(2, f"{options.payload}: this is not JSON: {fault}") from None
    except RecursionError:
        raise Fault(2, f"{options.payload}: this is not JSON that Lambda takes: it is nested too deep") from None
    return text


# ---- the request -----------------------------------------------------------------------------------------------------

def headers_of(options: argparse.Namespace) -> Dict[str, str]:
    headers = {"Content-Type": "application/json"}
    if options.event:
        headers["X-Amz-Invocation-Type"] = "Event"
    if options.tail:
        headers["X-Amz-Log-Type"] = "Tail"
    return headers


def ask(options: argparse.Namespace, payload: bytes) -> Answer:
    target = f"/2015-03-31/functions/{quote(options.name, safe=':$')}/invocations"
    return asked(options.endpoint, "POST", target, payload, headers_of(options), LONGEST_SECONDS)


# ---- what comes of it ------------------------------------------------------------------------------------------------

def print_body(body: bytes) -> None:
    """The bytes as they are; on a terminal, without what would do something to it."""
    if sys.stdout.isatty():
        print(printable_lines(body.decode(errors="replace").rstrip("\n")))
    else:
        sys.stdout.buffer.write(body if body.endswith(b"\n") else body + b"\n")
    sys.stdout.flush()


def show_log(headers: Dict[str, str]) -> None:
    """What the invocation printed, as far as the answer has it."""
    if headers.get("x-amz-log-result") is None:
        say("the answer has no log: `lambda_local up` keeps what functions print")
        return
    try:
        text = base64.b64decode(headers["x-amz-log-result"], validate=True).decode(errors="replace")
    except binascii.Error:
        say("the log in the answer is not Base64")
        return
    print(printable_lines(text.rstrip("\n")), file=sys.stderr)


def say(text: object) -> None:
    outgoing.tell(f"invoke: {text}")


def refusal(name: str, status: int, headers: Dict[str, str], body: bytes) -> str:
    """A line on an answer that is no result of the function."""
    try:
        members = json.loads(body)
        told = members.get("message") or members.get("Message") or members.get("errorMessage") or ""
        reason = members.get("Reason") or ""
    except (ValueError, RecursionError, AttributeError):
        told, reason = body[:300].decode(errors="replace"), ""
    kind = (headers.get("x-amzn-errortype") or "").partition(":")[0]
    said = ": ".join(filter(None, (f"{status} {kind}".strip(), str(told), str(reason))))
    return f"{name}: {' '.join(said.split())}"


def tell(options: argparse.Namespace, answer: Answer) -> int:
    """The exit status of an answer, which is printed."""
    status, headers, body = answer
    if options.tail and status == 200:
        show_log(headers)
    if options.event and status == 202:
        say(f"{options.name}: event accepted: {headers.get('x-amzn-requestid', 'it has no identifier')}")
        return 0
    if status != 200:
        say(refusal(options.name, status, headers, body))
        return 3
    print_body(body)
    if headers.get("x-amz-function-error"):
        say(f"{options.name}: the function has failed")
        return 1
    return 0


def parser() -> argparse.ArgumentParser:
    made = parser_of("invoke", __doc__, USAGE)
    made.add_argument("name", metavar="NAME")
    made.add_argument("payload", metavar="PAYLOAD", nargs="?")
    made.add_argument("--sample", metavar="KIND", help=f"the payload is a sample event: {', '.join(samples())}")
    made.add_argument("--set", metavar="PATH=VALUE", action="append", default=[],
                      help="set a value of the payload, in JSON, at a path that is there: Records[0].body='\"text\"'")
    made.add_argument("--now", action="store_true", help="the payload is the event of a schedule that is due now")
    made.add_argument("--event", action="store_true", help="invoke asynchronously, and do not wait for the result")
    made.add_argument("--tail", action="store_true", help="print the end of what the invocation printed")
    add_option(made)
    return made


def main() -> int:
    options = parser().parse_intermixed_args()  # (NAME --event PAYLOAD as well)
    try:
        return tell(options, ask(options, payload_of(options)))
    except Fault as fault:
        say(fault)
        return fault.status
    except KeyboardInterrupt:
        return 130
    except BrokenPipeError:  # (what reads the output has gone)
        os.dup2(os.open(os.devnull, os.O_WRONLY), sys.stdout.fileno())
        return 0
