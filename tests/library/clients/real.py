"""Real clients, as far as they are on the machine: the programs of examples/, curl, boto3 and the aws command line."""
import json
import os
import shutil
import subprocess
import sys

from tests.library.clients.kit import EXAMPLES, PORT, Service, later, replay_of, runtime_once, until
from tests.library.counted import check


def examples():
    with Service([("greet", 2, {"timeout": 10})]) as service:
        extension = subprocess.Popen([sys.executable, os.path.join(EXAMPLES, "extension.py"), f"127.0.0.1:{PORT + 1}"],
                                     stdout=subprocess.PIPE, text=True)
        assert extension.stdout is not None
        registered = extension.stdout.readline().split(" ", 1)
        check("the example extension registers", (registered[0], json.loads(registered[1])["functionName"]),
              ("200", "greet"))
        service.entries(2)
        runtime = subprocess.Popen([sys.executable, os.path.join(EXAMPLES, "runtime.py"), f"127.0.0.1:{PORT + 1}"])
        service.entries(3)
        said = subprocess.run([os.path.join(EXAMPLES, "invoke.sh"), "greet", '{"name":"Ada"}', f"127.0.0.1:{PORT}"],
                              capture_output=True, text=True).stdout
        check("the example runtime greets by curl", (said.split("\n")[0], said.split("\n")[-1]),
              ("HTTP/1.1 200 OK", '{"greeting": "Hello, Ada!"}'))
        event = json.loads(extension.stdout.readline().split(" ", 1)[1])
        check("the example extension is told", event["eventType"], "INVOKE")
        service.entries(7)
        status, ended, output = service.stop()
        check("a stop ends the service, which settles", (status, ended, output),
              (202, 0, "admitted 1 throttled 0 failed 0\n"))
        event = json.loads(extension.stdout.readline().split(" ", 1)[1])
        check("the example extension is told the end", (event["eventType"], event["shutdownReason"]),
              ("SHUTDOWN", "SPINDOWN"))
        check("both examples end", (extension.wait(10), runtime.wait(10)), (0, 0))
        words = [line.split()[-1] for line in service.logged().splitlines()]
        check("the log has two lines", words, ["listening", "stopped"])


def sdk():
    try:
        import boto3
        from botocore.config import Config
        from botocore.exceptions import ClientError
    except ImportError:
        return print("skip boto3 is not here")
    config = Config(retries={"max_attempts": 0}, read_timeout=60)
    client = boto3.client("lambda", endpoint_url=f"http://127.0.0.1:{PORT}", region_name="us-east-2",
                          aws_access_key_id="any", aws_secret_access_key="any", config=config)

    def fault(call, **words):
        try:
            call(**words)
        except ClientError as error:
            return error.response["Error"]["Code"], error.response["ResponseMetadata"]["HTTPStatusCode"]

    with Service([("f", 1, {"timeout": 60}), ("g", 2, {"reserved": 1})]) as service:
        waiting = later(runtime_once, PORT + 1)
        service.entries(1)
        answer = client.invoke(FunctionName="f", Payload=b'{"n":1}')
        check("boto3 invokes", (answer["StatusCode"], answer["ExecutedVersion"], answer.get("FunctionError"),
                                answer["Payload"].read()), (200, "$LATEST", None, b'{"n":1}'))
        check("the runtime saw the invocation of boto3", waiting(), answer["ResponseMetadata"]["RequestId"])
        waiting = later(runtime_once, PORT + 1, b'{"errorMessage":"no","errorType":"E"}', "error")
        service.entries(4)
        answer = client.invoke(FunctionName="arn:aws:lambda:us-east-2:123456789012:function:f", Payload=b"1")
        check("boto3 sees a function's error",
              (answer["StatusCode"], answer["FunctionError"], json.loads(answer["Payload"].read())["errorMessage"]),
              (200, "Unhandled", "no"))
        waiting()
        check("boto3 is told of an unknown function", fault(client.invoke, FunctionName="nobody"),
              ("ResourceNotFoundException", 404))
        check("boto3 is told of a version", fault(client.invoke, FunctionName="f", Qualifier="7"),
              ("ResourceNotFoundException", 404))
        check("boto3 is told of an event invocation", fault(client.invoke, FunctionName="f", InvocationType="Event"),
              ("InvalidParameterValueException", 400))
        check("boto3 is told of a payload that is no JSON", fault(client.invoke, FunctionName="f", Payload=b"{"),
              ("InvalidRequestContentException", 400))
        check("boto3 is told of a payload that is too long",
              fault(client.invoke, FunctionName="f", Payload=b'"' + b"x" * 6_291_455 + b'"'),
              ("RequestTooLargeException", 413))
        # (the runtime has answered, and not asked again)
        check("boto3 is throttled", fault(client.invoke, FunctionName="f"), ("TooManyRequestsException", 429))
        waiting = later(runtime_once, PORT + 1)
        until(lambda: service.stats()["inFlight"] == 0)
        check("boto3 invokes once the runtime has asked again",
              client.invoke(FunctionName="f", Payload=b"2")["Payload"].read(), b"2")
        waiting()
        check("boto3 reads a reservation",
              client.get_function_concurrency(FunctionName="g")["ReservedConcurrentExecutions"], 1)
        check("boto3 changes a reservation",
              client.put_function_concurrency(FunctionName="g", ReservedConcurrentExecutions=2)[
                  "ReservedConcurrentExecutions"], 2)
        check("boto3 is told of a reservation out of range",
              fault(client.put_function_concurrency, FunctionName="g", ReservedConcurrentExecutions=3),
              ("InvalidParameterValueException", 400))
        client.delete_function_concurrency(FunctionName="g")
        check("boto3 sees no reservation",
              client.get_function_concurrency(FunctionName="g").get("ReservedConcurrentExecutions"), None)
        check("the history replays to its own answers", *replay_of(service.history()))
        check("the service settles", service.stop(), (202, 0, "admitted 3 throttled 1 failed 1\n"))


def command_line():
    if not shutil.which("aws"):
        return print("skip the aws command line is not here")
    with Service([("f", 1, {})]) as service:
        waiting = later(runtime_once, PORT + 1)
        service.entries(1)
        output = os.path.join(service.folder, "output")
        environment = {**os.environ, "AWS_ACCESS_KEY_ID": "any", "AWS_SECRET_ACCESS_KEY": "any",
                       "AWS_MAX_ATTEMPTS": "1"}
        done = subprocess.run(["aws", "--endpoint-url", f"http://127.0.0.1:{PORT}", "--region", "us-east-2", "lambda",
                               "invoke", "--function-name", "f",
                               "--payload", '{"n":1}', output], capture_output=True, text=True, env=environment)
        if done.returncode and "base64" in done.stderr.lower():
            done = subprocess.run(["aws", "--endpoint-url", f"http://127.0.0.1:{PORT}", "--region", "us-east-2",
                                   "lambda", "invoke", "--function-name", "f",
                                   "--cli-binary-format", "raw-in-base64-out", "--payload", '{"n":1}', output],
                                  capture_output=True, text=True, env=environment)
        check("the aws command line invokes",
              (done.returncode, json.loads(done.stdout or "{}").get("StatusCode"),
               open(output).read() if os.path.exists(output) else done.stderr), (0, 200, '{"n":1}'))
        waiting()
        service.stop()
