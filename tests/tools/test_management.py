"""Checks what the invoke port of lambda_local up answers of the Lambda API beside Invoke: GetFunction,
GetFunctionConfiguration, ListFunctions, GetFunctionConcurrency and GetFunctionUrlConfig, the waiters of boto3 (if it is
installed), and an error with a sentence for each other operation of the service model that botocore has. The program is
LAMBDA_LOCAL_PROGRAM, else ./lambda_local."""
import contextlib
import json
import re

from lambda_local.front.operations import HERE, OPERATIONS
from tests.library.cases import Case
from tests.library.events_kit import READY, caller_of, invoke_path
from tests.library.up_kit import Up

APP = "def run(event, context): return 7\n"
FUNCTION = "/2015-03-31/functions/"
ARN = "arn:aws:lambda:eu-west-1:123456789012:function:"


class Management(Case):
    @contextlib.contextmanager
    def running(self, functions):
        up = Up(*READY, functions=functions, app=APP, whole={"region": "eu-west-1"})
        with caller_of(self, up) as caller:
            yield up, caller

    def test_a_function_is_shown_as_Lambda_shows_it(self):
        with self.running([{"name": "f", "runtime": "python", "handler": "app.run", "timeout": 9, "memory": 256,
                            "reserved": 1,
                            "variables": {"TABLE": "orders", "COUNT": 3},
                            "url": {"cors": {"allowOrigins": ["http://a"]}}},
                           {"name": "g", "runtime": "python", "handler": "app.run"}]) as (up, caller):
            status, headers, body = caller.ask("GET", FUNCTION + "f/configuration")
            found = json.loads(body)
            self.check("GetFunctionConfiguration", (status, headers["content-type"]), (200, "application/json"))
            for name, wanted in (
                    ("FunctionName", "f"), ("FunctionArn", ARN + "f"), ("Handler", "app.run"), ("Timeout", 9),
                    ("MemorySize", 256), ("Environment", {"Variables": {"TABLE": "orders", "COUNT": "3"}}),
                    ("Version", "$LATEST"), ("State", "Active"), ("LastUpdateStatus", "Successful"),
                    ("PackageType", "Zip"), ("Architectures", ["x86_64"])):
                self.check(f"its {name}", found.get(name), wanted)
            self.check("its runtime", re.fullmatch(r"python3\.\d+", found["Runtime"]) is not None)
            is_moment = re.fullmatch(r"\d{4}-\d\d-\d\dT\d\d:\d\d:\d\d\.\d{3}\+0000", found["LastModified"]) is not None
            self.check("its moment", is_moment)
            whole = json.loads(caller.ask("GET", FUNCTION + "f")[2])
            self.check("GetFunction", (whole["Configuration"], whole["Concurrency"]),
                       (found, {"ReservedConcurrentExecutions": 1}))
            self.check("its code", whole["Code"]["Location"], "file://" + up.at)
            status, headers, body = caller.ask("PUT", "/2017-10-31/functions/f/concurrency",
                                               b'{"ReservedConcurrentExecutions":200}')
            self.check("a reservation beyond the environments is refused", (
                status, headers.get("x-amzn-errortype", "").partition(":")[0], json.loads(body)["message"]),
                (400, "InvalidParameterValueException", "Reservation is out of range"))
            caller.ask("DELETE", "/2017-10-31/functions/f/concurrency")
            self.check("after its reservation is removed",
                       "Concurrency" in json.loads(caller.ask("GET", FUNCTION + "f")[2]), False)
            for name in (ARN + "f", "123456789012:function:f", "f?Qualifier=$LATEST"):
                seen = json.loads(caller.ask("GET", FUNCTION + name)[2])
                self.check(f"the function {name}", seen["Configuration"], found)
            self.check("what UP.json leaves out",
                       [json.loads(caller.ask("GET", FUNCTION + "g/configuration")[2]).get(name)
                                                   for name in ("Timeout", "MemorySize", "Environment")],
                       [3, 128, None])
            self.check("GetFunctionConcurrency", caller.ask("GET", "/2019-09-30/functions/g/concurrency")[::2],
                       (200, b"{}"))
            address = next(found[1] for line in up.lines for found in [re.search(r"its URL is (\S+)", line)] if found)
            url = json.loads(caller.ask("GET", "/2021-10-31/functions/f/url")[2])
            self.check("GetFunctionUrlConfig", (url["FunctionUrl"], url["AuthType"], url["Cors"]["AllowOrigins"]),
                       (address, "NONE", ["http://a"]))
            status, headers, body = caller.ask("GET", "/2021-10-31/functions/g/url")
            self.check("of one without a URL", (status, headers["x-amzn-errortype"]),
                       (404, "ResourceNotFoundException"))

    def test_functions_are_listed_in_pages(self):
        functions = [{"name": f"f{number}"} for number in range(5)]
        with self.running(functions) as (_, caller):
            def page(query):
                found = json.loads(caller.ask("GET", FUNCTION + query)[2])
                return [each["FunctionName"] for each in found["Functions"]], found.get("NextMarker")

            self.check("ListFunctions", page(""), ([f"f{number}" for number in range(5)], None))
            self.check("without the last /", caller.ask("GET", FUNCTION[:-1])[0], 200)
            first, marker = page("?MaxItems=2")
            second, marker = page(f"?MaxItems=2&Marker={marker}")
            third, marker = page(f"?MaxItems=2&Marker={marker}")
            self.check("in pages", (first, second, third, marker), (["f0", "f1"], ["f2", "f3"], ["f4"], None))
            for query in ("?MaxItems=0", "?MaxItems=10001", "?MaxItems=x", "?Marker=x", "?Marker=6", "?MaxItems=-1",
                          "?MaxItems=" + "9" * 5000):
                status, headers, _ = caller.ask("GET", FUNCTION + query)
                self.check(f"wrong: {query[:20]}", (status, headers["x-amzn-errortype"]),
                           (400, "InvalidParameterValueException"))

    def test_what_is_not_there_is_refused_by_name(self):
        with self.running([{"name": "f"}]) as (up, caller):
            for name, path, wanted in (
                    ("an unknown function", "x", (404, "ResourceNotFoundException")),
                    ("a malformed name", "f%2F", (400, "InvalidParameterValueException")),
                    ("another account", "arn:aws:lambda:eu-west-1:999999999999:function:f",
                     (404, "ResourceNotFoundException")),
                    ("a version", "f?Qualifier=7", (404, "ResourceNotFoundException"))):
                status, headers, body = caller.ask("GET", FUNCTION + path)
                self.check(f"GetFunction of {name}", (status, headers["x-amzn-errortype"]), wanted)
                self.check("it says why", "essage" in body.decode())
            others = [operation for operation in OPERATIONS if operation.name not in HERE]
            seen = []
            for operation in others:
                path = operation.path.pattern.replace("([^/]+)", "f").replace("/?", "").replace("\\", "")
                status, headers, body = caller.ask(operation.method, path, b"{}" if operation.method != "GET" else None)
                message = json.loads(body).get("Message", "")
                if (status, headers.get("x-amzn-errortype")) != (501,
                                                                 "NotImplementedException") or not message.startswith(
                        f"lambda_local has no {operation.name}: "):
                    seen.append((operation.name, status, body))
            self.check(f"{len(others)} operations that are not there say so", seen, [])
            status, headers, body = caller.ask("GET", "/2031-01-01/anything/new")
            self.check("one that is not known", (status, headers["x-amzn-errortype"], json.loads(body)["Message"][:61]),
                       (501, "NotImplementedException",
                        "lambda_local has no operation GET /2031-01-01/anything/new: it "[:61]))
            status, headers, body = caller.ask("GET", FUNCTION + "f", None, {"Origin": "http://a"})
            self.check("a web page gets nothing", (status, headers["x-amzn-errortype"]), (403, "AccessDeniedException"))
            status, headers, body = caller.ask("POST", invoke_path("f"), b"{}", {"X-Amz-Invocation-Type": "Event"})
            self.check("an event is taken", (status, body), (202, b""))

    def test_boto3_reads_functions_and_its_waiters_end(self):
        """Each operation of botocore's model, and the waiters."""
        try:
            import boto3
            import botocore.exceptions
        except ImportError:
            self.skipTest("boto3 is not here")
        with self.running([{"name": "f", "runtime": "python", "handler": "app.run", "url": True}]) as (up, _):
            client = boto3.client("lambda", endpoint_url=up.endpoint, region_name="eu-west-1",
                                  aws_access_key_id="local",
                                  aws_secret_access_key="local")
            for name in client.waiter_names:
                if "published" not in name and "snap" not in name:
                    client.get_waiter(name).wait(FunctionName="f", WaiterConfig={"Delay": 1, "MaxAttempts": 2})
                    self.check(f"the waiter {name}", True)
            self.check("list_functions",
                       [each["FunctionName"] for page in client.get_paginator("list_functions").paginate()
                                          for each in page["Functions"]], ["f"])
            self.check("get_function", client.get_function(FunctionName="f")["Configuration"]["State"], "Active")
            self.check("get_function_url_config", client.get_function_url_config(FunctionName="f")["AuthType"], "NONE")
            try:
                client.get_function(FunctionName="x")
                self.check("an unknown function raises", False)
            except client.exceptions.ResourceNotFoundException as fault:
                self.check("an unknown function", fault.response["Error"]["Message"], "Function not found")
            # (two differ from others by their query alone)
            known = {operation.name for operation in OPERATIONS} | {"GetLayerVersionByArn",
                                                                    "ListProvisionedConcurrencyConfigs"}
            self.check("each operation of the model is known", set(client.meta.service_model.operation_names) - known,
                       set())
            try:
                client.create_function(FunctionName="n", Role="arn:aws:iam::123456789012:role/r",
                                       Code={"ZipFile": b"x"})
                self.check("create_function raises", False)
            except botocore.exceptions.ClientError as fault:
                self.check("create_function", (fault.response["Error"]["Code"], fault.response["Error"]["Message"]),
                           ("NotImplementedException",
                            "lambda_local has no CreateFunction: functions are those of UP.json, "
                                                       "which lambda_local up reads when it starts"))
