"""The service that runs and that a command means: --endpoint, else AWS_ENDPOINT_URL_LAMBDA, which `lambda_local up`
prints and sets, else http://127.0.0.1:9000."""
import argparse
import os
from typing import Dict, Mapping, Optional, Tuple
from urllib.parse import urlsplit

from .exchange import of_threads
from .exchange.connection import TooLong, words_of
from .program import Fault

NOWHERE = "http://127.0.0.1:9000"
MOST_ANSWER = 64 << 20  # bytes
Answer = Tuple[int, Dict[str, str], bytes]  # status, headers (names in lower case) and body


def add_option(parser: argparse.ArgumentParser) -> None:
    parser.add_argument("--endpoint", metavar="URL",
                        help=f"the address of the service (AWS_ENDPOINT_URL_LAMBDA, else {NOWHERE})")


def address_of(given: Optional[str]) -> Tuple[str, int, str]:
    """The host, port and path at which the service is."""
    url = given or os.environ.get("AWS_ENDPOINT_URL_LAMBDA") or NOWHERE
    where = "--endpoint" if given else "AWS_ENDPOINT_URL_LAMBDA"
    try:
        parts = urlsplit(url)
        host, port = parts.hostname, parts.port
    except ValueError:
        host = port = None
    if host is None or parts.scheme != "http" or parts.query or parts.fragment or parts.username is not None:
        raise Fault(2, f"{where}={url[:200]}: write it as http://127.0.0.1:PORT")
    return host, port or 80, parts.path.rstrip("/")


def asked(endpoint: Optional[str], method: str, target: str, body: bytes = b"", headers: Mapping[str, str] = {},
          seconds: float = 30) -> Answer:
    """What the service answers."""
    host, port, path = address_of(endpoint)
    try:
        with of_threads.asked(port, method, path + target, body, headers, seconds, host) as answer:
            return answer.status, answer.headers, answer.whole(MOST_ANSWER)
    except TooLong:
        raise Fault(4, f"http://{host}:{port}: its answer has more than {MOST_ANSWER:,} bytes, so it is none of "
                    "lambda_local") from None
    except OSError as fault:
        raise Fault(4, f"http://{host}:{port}: {words_of(fault)}: start the service, for example by "
                    "`lambda_local up UP.json`, and name the address that it prints by --endpoint or "
                    "AWS_ENDPOINT_URL_LAMBDA") from None
