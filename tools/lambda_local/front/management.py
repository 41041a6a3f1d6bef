"""What the invoke port answers of the Lambda API beside Invoke and reserved concurrency: the functions of UP.json as
GetFunction, GetFunctionConfiguration, ListFunctions and GetFunctionUrlConfig show them, which SDKs' waiters ask for;
and an error with a sentence for each operation that is not there."""
import json
import os
import sys
import uuid
from datetime import datetime, timezone
from typing import Any, Dict, List, Optional, Tuple
from urllib.parse import parse_qs, quote

from ..exchange.client import Client
from ..exchange.connection import Unanswered
from ..streaming.streams import Streams
from ..variables import text_of
from . import response_stream
from .aliases import Aliases
from .errors import WRONG_TYPE, of_service, of_user, refusal
from .events import TYPE, function_of, target_of, trace_of
from .http import LONGEST_BODY, Reply, Request, first
from .invoke import SYNCHRONOUS, InvokePort
from .operations import HERE, OF_API, OperationCall, operation_of, sentence
from .settings import Address, Settings

MOST_ITEMS, DEFAULT_ITEMS = 10_000, 50  # of a page of ListFunctions


class Management:
    """Answers these operations; `port` has all other requests that are handed over."""

    def __init__(self, port: InvokePort, client: Client, settings: Settings, configuration: Dict[str, Any],
                 urls: Dict[str, str], streams: Streams):
        self.port, self.streams, self.since = port, streams, datetime.now(timezone.utc)
        self.client, self.settings, self.configuration, self.urls = client, settings, configuration, urls
        self.members = {member["name"]: member for member in settings.functions}
        self.aliases = Aliases(settings.aliases)

    async def handle(self, given: Request) -> Reply:
        request = self.aliases.without(given)
        operation = operation_of(request.method, request.path)
        if operation.name == "Invoke" if operation else not OF_API.fullmatch(request.path):
            return await self.port.handle(request, request is not given)
        return await self.answer(request, operation)

    async def answer(self, request: Request, operation: Optional[OperationCall]) -> Reply:
        identifier = str(uuid.uuid4())
        if operation is None or operation.name not in HERE:
            message = sentence(request.method, request.path, operation)
            return self.refuse(501, "NotImplementedException", message, identifier)
        query = parse_qs(request.query, keep_blank_values=True)
        if operation.name == "ListFunctions":
            return self.list_functions(query, identifier)
        name = operation.parameters[0]
        target = self.target(name, query)
        try:
            reply = await self.port.unknown(target)
            if reply:
                return reply
            if operation.name == "InvokeWithResponseStream":
                return await self.stream(request, target, identifier)
            return await self.of_function(operation.name, str(function_of(target_of(name))), identifier)
        except Unanswered:
            return of_service(500, "The service breaks its connection off")

    @staticmethod
    def refuse(status: int, kind: str, message: str, identifier: str) -> Reply:
        return refusal(status, kind, {"Message": message, "Type": "User"}, identifier)

    @staticmethod
    def success(value: Dict[str, Any], identifier: str) -> Reply:
        return Reply(200, [("content-type", "application/json"), ("x-amzn-requestid", identifier)],
                     json.dumps(value).encode())

    @staticmethod
    def target(name: str, query: Dict[str, List[str]]) -> str:
        """That of an Invoke of this name and qualifier."""
        qualifier = first_of(query, "Qualifier")
        return target_of(name) + (f"?Qualifier={quote(qualifier, safe='')}" if qualifier is not None else "")

    async def stream(self, request: Request, target: str, identifier: str) -> Reply:
        kind = first(request.headers, TYPE.lower())
        if kind == "DryRun":
            return Reply(204, [("x-amzn-requestid", identifier)])
        if kind not in SYNCHRONOUS:
            return WRONG_TYPE
        payload = request.body(LONGEST_BODY)
        return await response_stream.invoke_with_response_stream(self.client, self.streams, target,
                                                                 trace_of(request.headers), payload)

    async def of_function(self, operation: str, name: str, identifier: str) -> Reply:
        configuration = self.of_member(name)
        if operation == "GetFunctionConfiguration":
            return self.success(configuration, identifier)
        if operation == "GetFunctionUrlConfig":
            if name not in self.urls:
                return self.refuse(404, "ResourceNotFoundException", f'{name} has no "url" in UP.json', identifier)
            return self.success(self.of_url(name, self.settings.urls[name]), identifier)
        reserved = await self.client.ask("GET", f"/2019-09-30/functions/{name}/concurrency", [])
        concurrency = json.loads(reserved[2]) if reserved[0] == 200 else {}
        code = {"RepositoryType": "local", "Location": f"file://{quote(self.folder(name))}"}
        return self.success({"Configuration": configuration, "Code": code, "Tags": {},
                           **({"Concurrency": concurrency} if concurrency else {})}, identifier)

    def folder(self, name: str) -> str:
        return os.path.realpath(os.path.join(self.settings.folder, self.members[name].get("directory", "")))

    def list_functions(self, query: Dict[str, List[str]], identifier: str) -> Reply:
        most, marker = first_of(query, "MaxItems"), first_of(query, "Marker")
        count = whole(most, MOST_ITEMS) if most is not None else DEFAULT_ITEMS
        begin = whole(marker, len(self.members)) if marker else 0
        if not count or begin is None:
            wrong = f"MaxItems must be from 1 to {MOST_ITEMS}" if not count else "Marker is not one that was given"
            return of_user(400, "InvalidParameterValueException", wrong, identifier)
        names = list(self.members)
        following = begin + count
        return self.success({"Functions": [self.of_member(name) for name in names[begin:following]],
                           **({"NextMarker": str(following)} if following < len(names) else {})}, identifier)

    # ---- a function --------------------------------------------------------------------------------------------------

    def of_member(self, name: str) -> Dict[str, Any]:
        """A function's configuration, as the operations show it."""
        member, whole_ = self.members[name], self.configuration
        account, region = whole_["account"], whole_["region"]
        variables = {key: text_of(value) for key, value in member.get("variables", {}).items()}
        return {
            "FunctionName": name, "FunctionArn": f"arn:aws:lambda:{region}:{account}:function:{name}",
            "Runtime": runtime_of(member), "Role": f"arn:aws:iam::{account}:role/local",
            "Handler": member.get("handler", "index.handler"), "CodeSize": 0, "Description": "",
            "Timeout": member.get("timeout", 3), "MemorySize": member.get("memory", 128),
            "LastModified": self.since.strftime("%Y-%m-%dT%H:%M:%S.000+0000"), "Version": "$LATEST",
            **({"Environment": {"Variables": variables}} if variables else {}),
            "TracingConfig": {"Mode": "PassThrough"}, "State": "Active", "LastUpdateStatus": "Successful",
            "PackageType": "Zip", "Architectures": ["x86_64"], "EphemeralStorage": {"Size": 512},
            "LoggingConfig": {"LogFormat": "Text", "LogGroup": f"/aws/lambda/{name}"}}

    def of_url(self, name: str, address: Address) -> Dict[str, Any]:
        moment = self.since.strftime("%Y-%m-%dT%H:%M:%SZ")
        return {"FunctionUrl": f"{self.urls[name]}/", "FunctionArn": self.of_member(name)["FunctionArn"],
                "AuthType": "NONE", "CreationTime": moment, "LastModifiedTime": moment,
                "InvokeMode": "RESPONSE_STREAM" if address.streams else "BUFFERED",
                **({"Cors": of_cors(address)} if address.cors else {})}


def first_of(query: Dict[str, List[str]], name: str) -> Optional[str]:
    return next(iter(query.get(name, ())), None)


def whole(text: str, most: int) -> Optional[int]:
    """A number of digits; none if it is none, or greater."""
    return int(text) if text.isascii() and text.isdigit() and len(text) < 9 and int(text) <= most else None


def runtime_of(member: Dict[str, Any]) -> str:
    """By its name among Lambda's runtimes, if UP.json says one; a command is of a custom runtime."""
    given = member.get("runtime", "provided")
    return {"python": f"python{sys.version_info[0]}.{sys.version_info[1]}", "node": "nodejs"}.get(given, str(given))


def of_cors(address: Address) -> Dict[str, Any]:
    cors = address.cors
    found: List[Tuple[str, Any]] = [] if cors is None else [
        ("AllowCredentials", cors.credentials), ("AllowHeaders", list(cors.headers)),
        ("AllowMethods", list(cors.methods)), ("AllowOrigins", list(cors.origins)),
        ("ExposeHeaders", list(cors.exposed)), ("MaxAge", cors.seconds)]
    return {name: value for name, value in found if value not in ([], None)}
