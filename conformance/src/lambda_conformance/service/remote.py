"""Asks a Lambda that is not here how it answers where docs/differences.md does not know it: AWS's own, or another one.
Requests are signed with the credentials that boto3 finds, if it is installed and --region is given. What is beyond this
machine needs the option --beyond-this-machine, and an answer at the terminal: on AWS Invokes cost money."""
import argparse
import http.client
import ipaddress
import json
import os
import ssl
import sys
import urllib.parse
import zipfile
from typing import Any, Dict, NamedTuple, Optional, Sequence, Tuple

from lambda_local.outgoing import written
from lambda_local.service import Fault

from ..documents import cell
from . import probe
from .questions import Asked, Question, Reply, event, questions

SECONDS = 60.0  # for an answer
LONGEST = 16 << 20  # bytes of one
PATH = "/2015-03-31/functions/{}/invocations{}"


class Endpoint(NamedTuple):
    url: urllib.parse.SplitResult
    region: Optional[str]

    @property
    def is_here(self) -> bool:
        """Whether it is of this machine: loopback, by number or as `localhost`."""
        host = self.url.hostname or ""
        try:
            return ipaddress.ip_address(host).is_loopback
        except ValueError:
            return host == "localhost" or host.endswith(".localhost")

    def ask(self, asked: Asked) -> Reply:
        path = self.url.path.rstrip("/") + PATH.format(urllib.parse.quote(asked.function), asked.query)
        headers = {"Content-Type": "application/json", "Host": self.url.netloc, **asked.headers}
        if self.region:
            headers = signed(f"{self.url.scheme}://{self.url.netloc}{path}", headers, asked.event, self.region)
        made: Any = http.client.HTTPConnection
        if self.url.scheme == "https":
            made = http.client.HTTPSConnection
        options = {"context": ssl.create_default_context()} if self.url.scheme == "https" else {}
        connection = made(self.url.hostname, self.url.port, timeout=SECONDS, **options)
        try:
            connection.request("POST", path, asked.event, headers)
            answer = connection.getresponse()
            return Reply(answer.status, {name.lower(): value for name, value in answer.getheaders()},
                         answer.read(LONGEST))
        finally:
            connection.close()


def signed(url: str, headers: Dict[str, str], body: bytes, region: str) -> Dict[str, str]:
    """The headers with a signature, by the credentials that boto3 finds (Signature Version 4)."""
    try:
        import boto3  # type: ignore[import]
        from botocore.auth import SigV4Auth  # type: ignore[import]
        from botocore.awsrequest import AWSRequest  # type: ignore[import]
    except ImportError:
        raise Fault(2, "--region: requests are signed by boto3, which is not installed: pip install boto3, or leave "
                       "--region out") from None
    credentials = boto3.Session(region_name=region).get_credentials()
    if credentials is None:
        raise Fault(2, "--region: boto3 finds no credentials: `aws configure` writes them, or leave --region out")
    request = AWSRequest("POST", url, headers=headers, data=body)
    SigV4Auth(credentials.get_frozen_credentials(), "lambda", region).add_auth(request)
    return dict(request.headers.items())


def endpoint_of(text: str, region: Optional[str]) -> Endpoint:
    try:
        url = urllib.parse.urlsplit(text)
        if url.scheme in ("http", "https") and url.hostname and url.port != 0 and not url.username:
            return Endpoint(url, region)
    except ValueError:
        pass
    raise Fault(2, f"--endpoint {text}: write a URL such as http://127.0.0.1:3001")


def agreed(endpoint: Endpoint, function: str, is_allowed: bool, count: int) -> None:
    """A Fault, before anything is sent, unless the user wants what is beyond this machine to be asked."""
    if endpoint.is_here:
        return
    host = endpoint.url.hostname
    if not is_allowed:
        raise Fault(2, f"{host} is not this machine: --beyond-this-machine allows to ask it, once a question is "
                       "answered")
    if not sys.stdin.isatty():
        raise Fault(2, f"{host} is not this machine, so a question must be answered at a terminal first, and standard "
                       "input is not one")
    print(f"{count} Invokes of {function} are sent to {host}; on AWS they cost money, and the credentials of boto3 "
          f"sign them if there is a --region.\nWrite the function's name to go on: ", end="", flush=True)
    if sys.stdin.readline().strip() != function:
        raise Fault(2, f"nothing was sent to {host}")


def write_zip(path: str) -> int:
    """The function, as Lambda takes it: the same bytes each time."""
    source = zipfile.ZipInfo("probe.py", (2026, 1, 1, 0, 0, 0))
    source.external_attr = 0o644 << 16
    with open(os.path.abspath(probe.__file__ or ""), encoding="utf-8") as file:
        text = file.read()
    try:
        with zipfile.ZipFile(path, "w", zipfile.ZIP_DEFLATED) as archive:
            archive.writestr(source, text)
    except OSError as fault:
        raise Fault(2, f"--zip {path}: {fault.strerror}: name a file that can be written") from None
    print(f"{path}: deploy it as a function of Python with the handler probe.handler and a timeout of 3 s, and for "
          "--failing as another one with probe.missing")
    return 0


def is_probe(endpoint: Endpoint, function: str) -> None:
    try:
        reply = endpoint.ask(Asked(function, event("who")))
    except (OSError, http.client.HTTPException) as fault:
        raise Fault(2, f"{endpoint.url.netloc}: no Lambda answers there ({fault})") from None
    if reply.member("probe") != probe.VERSION:
        raise Fault(2, f"{function} is not the probe, which --zip writes: it answers {reply.status} "
                       f"{reply.body[:100].decode(errors='replace')}")


def answered(endpoint: Endpoint, question: Question) -> Optional[str]:
    try:
        return question.show(endpoint.ask(question.ask))
    except (OSError, http.client.HTTPException) as fault:
        print(f"no answer: {question.point}: {fault}", file=sys.stderr)
        return None


def add_options(parser: argparse.ArgumentParser) -> None:
    group = parser.add_argument_group("a Lambda that is not here (docs/conformance_service.md)")
    group.add_argument("--zip", metavar="FILE", help="write the function that must be deployed there, and ask nothing")
    group.add_argument("--endpoint", metavar="URL", help="ask this Lambda where docs/differences.md does not know it")
    group.add_argument("--failing", metavar="NAME", default="", help="the function with the handler probe.missing")
    group.add_argument("--region", metavar="NAME", help="sign requests for this region, by boto3")
    group.add_argument("--beyond-this-machine", action="store_true", dest="beyond",
                       help="allow an endpoint that is not on this machine, once a question is answered")
    group.add_argument("--markdown", metavar="FILE", help="write the answers there as a page, to be sent")


def asks(options: argparse.Namespace) -> bool:
    """Whether it is this that is wanted."""
    return bool(options.zip or options.endpoint)


def run(options: argparse.Namespace) -> int:
    """The exit status: 0 if each answer came, whatever it is, and 1 if one did not."""
    if options.zip:
        return write_zip(options.zip)
    endpoint, asked = endpoint_of(options.endpoint, options.region), questions(options.function, options.failing)
    agreed(endpoint, options.function, options.beyond, len(asked) + 1)
    is_probe(endpoint, options.function)
    found = [(question, answered(endpoint, question)) for question in asked]
    for question, came in found:
        mark = "same  " if came == question.here else "other " if came is not None else "none  "
        print(f"{mark} {question.point}: {json.dumps(came, ensure_ascii=False)}"
              + ("" if came == question.here else f", here {json.dumps(question.here)}"))
    if options.markdown:
        write_page(options.markdown, endpoint, [(question, came or "no answer") for question, came in found])
    return int(any(came is None for _, came in found))


def write_page(path: str, endpoint: Endpoint, found: Sequence[Tuple[Question, str]]) -> None:
    lines = [f"# How {cell(endpoint.url.hostname or '')} answers", "", "| Point | Here | There |", "|---|---|---|",
             *(f"| {question.point} | {cell(question.here)} | {cell(came)} |" for question, came in found), ""]
    try:
        with written(path, has_payloads=False) as file:
            file.write("\n".join(lines))
    except OSError as fault:
        raise Fault(2, f"--markdown {path}: {fault.strerror}: name a file that can be written") from None
