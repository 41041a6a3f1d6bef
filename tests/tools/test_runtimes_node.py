"""Checks examples/runtime.mjs against a service, where Node is on the machine. What is expected is what the Developer
Guide and the sources of AWS's own runtime say. The program is LAMBDA_LOCAL_PROGRAM, else ./lambda_local."""
import json
import os
import re
import shutil
import tempfile
import unittest
from typing import Dict, List, Tuple

from tests.library.runtimes_kit import EXAMPLES, TIME, TRACE, Running, RuntimeCase, report

NODE = ["node", os.path.join(EXAMPLES, "runtime.mjs")]

NODE_APP = """
class OrderError extends Error { constructor(message) { super(message); this.name = "OrderError"; } }
const sleep = (milliseconds) => new Promise((resolve) => setTimeout(resolve, milliseconds));
const inner = (event) => event.missing.id;
const bodies = {
  type: (event) => inner(event),
  order: () => { throw new OrderError("no such order"); },
  text: () => { throw "just a text"; },
  nothing: () => Promise.reject(),
  loop: () => { const loop = {}; loop.loop = loop; return loop; },
  none: () => undefined,
  never: () => new Promise(() => {}),
  large: () => "x".repeat(7000000),
  long: () => { throw new Error("x".repeat(7000000)); },
  late: () => sleep(1500),
  variables: () => [process.env._X_AMZN_TRACE_ID, process.env.AWS_EXECUTION_ENV],
  context: (event, context) => ({ ...context, left: context.getRemainingTimeInMillis() }),
  uncaught: () => { setTimeout(() => { throw new OrderError("later"); }, 1); return sleep(3000); },
  rejected: () => { Promise.reject(new OrderError("alone")); return sleep(3000); },
};
EXPORT handler = async (event, context) => (bodies[event.do] ?? (() => process.pid))(event, context);
"""
NODE_CALLBACKS = """
exports.handler = (event, context, callback) => {
  if (event.do === "error") callback(new RangeError("too far"));
  else if (event.do === "text") callback("a text");
  else if (event.do === "throws") throw new RangeError("thrown");
  else if (event.do === "silent") return;
  else if (event.do === "done") context.done(null, "done");
  else if (event.do === "succeed") context.succeed("succeeded");
  else if (event.do === "fail") context.fail(new RangeError("failed"));
  else if (event.do === "waits") { setTimeout(() => { globalThis.ran = true; }, 300); callback(null, "waits"); }
  else if (event.do === "hurries") {
    context.callbackWaitsForEmptyEventLoop = false;
    setTimeout(() => {}, 100000);
    callback(null, "hurries");
  }
  else if (event.do === "ran") callback(null, globalThis.ran === true);
  else setTimeout(() => callback(null, process.pid), 20);
};
exports.nested = { deep: { handler: async () => "nested" } };
exports.number = 7;
"""
NODE_MODULE = NODE_APP.replace("EXPORT handler", "export const handler")
NODE_COMMON = NODE_APP.replace("EXPORT handler", "exports.handler")

# What aws-lambda-nodejs-runtime-interface-client says of each (its UserFunction.js and Errors.js).
NODE_INITS: List[Tuple[str, Dict[str, str], str, str]] = [
    ("app.handler", {}, "Runtime.ImportModuleError", "Error: Cannot find module 'app'\nRequire stack:\n- "),
    ("app.handler", {"app.js": "require('nothing-here');"}, "Runtime.ImportModuleError",
     "Error: Cannot find module 'nothing-here'\nRequire stack:\n- "),
    ("app.handler", {"app.mjs": "import 'nothing-here';"}, "Error",
     "Cannot find package 'nothing-here' imported from "),
    ("app.handler", {"app.js": "exports.handler = async () => {\n  return { a: ;\n};"}, "Runtime.UserCodeSyntaxError",
     "SyntaxError: Unexpected token ';'"),
    ("app.handler", {"app.mjs": "export const handler = async () => {\n  return { a: ;\n};"},
     "Runtime.UserCodeSyntaxError", "SyntaxError: Unexpected token ';'"),
    ("app.other", {"app.mjs": NODE_MODULE}, "Runtime.HandlerNotFound", "app.other is undefined or not exported"),
    ("app.number", {"app.js": NODE_CALLBACKS}, "Runtime.HandlerNotFound", "app.number is not a function"),
    ("app", {"app.js": NODE_COMMON}, "Runtime.MalformedHandlerName", "Bad handler"),
    ("../app.handler", {}, "Runtime.MalformedHandlerName",
     "'../app.handler' is not a valid handler name. Use absolute paths"),
    ("app.handler", {"app.mjs": "null.x;"}, "TypeError", "Cannot read properties of null (reading 'x')"),
    ("app.handler", {"app.js": "setTimeout(() => { null.x }); exports.handler = 1; const end = Date.now() + 50; while "
                     "(Date.now() < end);"},
     "Runtime.HandlerNotFound", "app.handler is not a function"),
]

NODE_LOG = """
process.stderr.write = () => true;
console.log("at the load");
EXPORT handler = async (event, context) => {
  console.debug("debugged");
  console.log("order %d accepted", event.order, { left: 3 });
  console.warn("two\\nlines");
  console.error(new RangeError("no price"));
  return context.awsRequestId;
};
"""


@unittest.skipUnless(shutil.which("node"), "Node is not here")
class RuntimesNode(RuntimeCase):
    def test_an_error_is_reported_with_type_message_and_trace(self):
        with Running([*NODE, "app.handler"], {"app.mjs": NODE_MODULE}) as running:
            failed, told = running.invoke({"do": "type"})
            self.check("Node: an error's members", (failed, sorted(told)),
                       (True, ["errorMessage", "errorType", "trace"]))
            self.check("Node: its type and message", report(told, "errorType", "errorMessage"),
                       ("TypeError", "Cannot read properties of undefined (reading 'id')"))
            self.check("Node: its trace",
                       (told["trace"][0], bool(re.search(r"at inner \(.*/app\.mjs:4:\d+\)", told["trace"][1]))),
                       ("TypeError: Cannot read properties of undefined (reading 'id')", True))
            self.check("Node: the trace ends before the runtime's own frames",
                       "runtime.mjs" not in "".join(told["trace"]) + running.output())
            self.check("Node: the trace is printed", bool(re.search(r"TypeError: .*\n    at inner \(.*app\.mjs:4:\d+\)",
                                                                    running.output())), shown=running.output())
            self.check("Node: an error of the user's own",
                       report(running.invoke({"do": "order"})[1], "errorType", "errorMessage"),
                       ("OrderError", "no such order"))
            self.check("Node: what is thrown is no error", running.invoke({"do": "text"}),
                       (True, {"errorType": "string", "errorMessage": "just a text", "trace": []}))
            self.check("Node: a rejection with nothing", running.invoke({"do": "nothing"}),
                       (True, {"errorType": "string", "errorMessage": "handled", "trace": []}))
            self.check("Node: an output that is no JSON", report(running.invoke({"do": "loop"})[1], "errorType",
                                                                 "errorMessage"),
                       ("Error", "Unable to stringify response body"))
            self.check("Node: no output", running.invoke({"do": "none"}), (False, None))
            self.check("Node: a promise that is never kept", running.invoke({"do": "never"}), (False, None))
            self.check("Node: a report that would be too long is cut", running.invoke({"do": "long"})[1]["errorType"],
                       "Error")
            self.too_large("Node", running)

    def test_what_is_thrown_outside_of_the_handler_is_reported(self):
        for do, kind, message, status in (("uncaught", "OrderError", "later", 129),
                                          ("rejected", "Runtime.UnhandledPromiseRejection", "OrderError: alone", 128)):
            with Running([*NODE, "app.handler"], {"app.mjs": NODE_MODULE}) as running:
                told = running.invoke({"do": do})[1]
                self.check(f"Node: {do}", (*report(told, "errorType", "errorMessage"), running.runtime.wait(10)),
                           (kind, message, status))
                self.check(f"Node: {do}, its trace", any("app.mjs:" in line for line in told["trace"]),
                           shown=told["trace"])

    def test_the_context_has_what_Lambda_gives(self):
        with Running([*NODE, "app.handler"], {"app.mjs": NODE_MODULE}) as running:
            failed, told = running.invoke({"do": "context"})
            self.check("Node: the context", {**told, "awsRequestId": len(told["awsRequestId"]),
                                             "left": 0 < told["left"] <= 60000} if not failed else told, {
                     "awsRequestId": 36, "invokedFunctionArn": "arn:aws:lambda:us-east-2:123456789012:function:f",
                     "functionName": "f",
                     "functionVersion": "$LATEST", "memoryLimitInMB": "128", "logGroupName": "/aws/lambda/f",
                     "logStreamName": "local/[$LATEST]1", "callbackWaitsForEmptyEventLoop": True, "left": True})
            self.check("Node: an invocation's trace, and AWS_EXECUTION_ENV", [re.sub(r"\d+\.x$", "N.x",
                    word) for word in running.invoke({"do": "variables"}, **{"X-Amzn-Trace-Id": TRACE})[1]],
                       [TRACE, "AWS_Lambda_nodejsN.x"])

    def test_a_handler_is_found_by_each_form_of_its_name(self):
        module, common = json.dumps({"type": "module"}), json.dumps({"type": "commonjs"})
        for name, files in (("app.handler", {"app.mjs": NODE_MODULE}), ("app.handler", {"app.cjs": NODE_COMMON}),
                            ("app.handler", {"app.js": NODE_COMMON}),
                            ("app.handler", {"app.js": NODE_MODULE, "package.json": module}),
                            ("app.handler", {"app.js": NODE_COMMON, "package.json": common}),
                            ("dir/app.handler", {"dir/app.mjs": NODE_MODULE}),
                            ("dir/sub/app.handler", {"dir/sub/app.js": NODE_COMMON}),
                            ("dir/app.handler", {"dir/app.js": NODE_MODULE, "package.json": module}),
                            ("a/a.handler", {"a/a.js": NODE_COMMON}),
                            ("app.handler", {"app/index.js": NODE_COMMON}),
                            ("app.handler", {"app/other.js": "", "app.mjs": NODE_MODULE})):
            with Running([*NODE, name], files) as running:
                self.check(f"Node: {name} of {', '.join(files)}", running.invoke({})[1], running.runtime.pid)

    def test_the_variable_HANDLER_names_the_handler(self):
        with Running(NODE, {"dir/app.cjs": NODE_COMMON}, _HANDLER="dir/app.handler") as running:
            self.check("Node: _HANDLER", running.invoke({})[1], running.runtime.pid)

    def test_LAMBDA_TASK_ROOT_has_the_handler(self):
        with tempfile.TemporaryDirectory() as elsewhere:
            with Running([*NODE, "app.handler"], {"app.js": NODE_COMMON}) as task:
                with Running([*NODE, "app.handler"], run_from=elsewhere, LAMBDA_TASK_ROOT=task.folder) as running:
                    self.check("Node: LAMBDA_TASK_ROOT", running.invoke({})[1], running.runtime.pid)

    def test_without_a_handler_it_greets(self):
        with Running(NODE) as running:
            self.check("Node: without a handler it greets", running.invoke({"name": "Ada"}),
                       (False, {"greeting": "Hello, Ada!"}))

    def test_callbacks_answer_as_promises_do(self):
        with Running([*NODE, "app.handler"], {"app.js": NODE_CALLBACKS}) as running:
            self.check("Node: a callback", running.invoke({})[1], running.runtime.pid)
            for do, wanted in (("error", ("RangeError", "too far")), ("text", ("string", "a text")),
                               ("throws", ("RangeError", "thrown")), ("fail", ("RangeError", "failed"))):
                self.check(f"Node: callback, {do}", report(running.invoke({"do": do})[1], "errorType", "errorMessage"),
                           wanted)
            for do, gives in (("done", "done"), ("succeed", "succeeded"), ("silent", None), ("waits", "waits"),
                              ("ran", True)):
                self.check(f"Node: callback, {do}", running.invoke({"do": do}), (False, gives))
            self.check("Node: callbackWaitsForEmptyEventLoop = false", [running.invoke({"do": do}) for do in ("hurries",
                                                                                                              "ran")],
                       [(False, "hurries"), (False, True)])

    def test_a_nested_handler_is_found(self):
        with Running([*NODE, "app.nested.deep.handler"], {"app.js": NODE_CALLBACKS}) as running:
            self.check("Node: a nested handler", running.invoke({}), (False, "nested"))

    def test_a_failed_init_is_reported_by_its_kind(self):
        for name, files, kind, message in NODE_INITS:
            with Running([*NODE, name], files) as running:
                told, status, printed = running.init_report()
                what = f"Node: Init of {name} of {', '.join(files) or 'no file'}, {kind}"
                self.check(what, (status, told and told["errorType"],
                                  told and told["errorMessage"].startswith(message)), (1, kind, True), shown=told)
                self.check(what + ": printed", message.split("\n")[0] in printed, shown=printed)
                if kind == "Runtime.UserCodeSyntaxError":
                    self.check(what + ": its place", bool(re.search(r"/app\.m?js:2\n  return { a: ;\n +\^", printed)),
                               shown=printed)

    def test_the_console_prints_lines_as_Lambdas_runtime_does(self):
        """The lines of the console, as Lambda's Node runtime prints them (LogPatch.js of its interface client)."""
        for kind, app in (("app.mjs", NODE_LOG.replace("EXPORT handler", "export const handler")),
                          ("app.cjs", NODE_LOG.replace("EXPORT handler", "exports.handler"))):
            for level, shown in (("", "DEBUG INFO"), ("INFO", "INFO"), ("WARN", "")):
                with Running([*NODE, "app.handler"], {kind: app}, AWS_LAMBDA_LOG_LEVEL=level) as running:
                    request = running.invoke({"order": 7})[1]
                    line = lambda level, text, request=request: (
                        rf"{TIME}\.\d\d\dZ\t{request}\t{level}\t{text}\n")
                    wanted = ((line("INFO", "at the load", "undefined") if "INFO" in shown else "")
                              + (line("DEBUG", "debugged") if "DEBUG" in shown else "")
                              + (line("INFO", r"order 7 accepted \{ left: 3 \}") if "INFO" in shown else "")
                              + line("WARN", "two\nlines") + line("ERROR",
                                                                  r"RangeError: no price\n( +at .*\n)+ +at .*"))
                    self.check(f"Node: the console of {kind}, level {level or 'none'}",
                               bool(re.fullmatch(wanted, running.output())), shown=running.output())
            with Running([*NODE, "app.handler"], {kind: app}, AWS_LAMBDA_LOG_FORMAT="JSON") as running:
                request = running.invoke({"order": 7})[1]
                lines = [json.loads(line) for line in running.output().splitlines()]
                fault = lines[-1].pop("message")
                self.check(f"Node: the console of {kind} as JSON, each with its moment",
                           [bool(re.fullmatch(TIME + r"\.\d\d\dZ", line.pop("timestamp"))) for line in lines],
                           4 * [True])
                self.check(f"Node: the console of {kind} as JSON", lines, [
                    {"level": "INFO", "message": "at the load"},
                    {"level": "INFO", "requestId": request, "message": "order 7 accepted { left: 3 }"},
                    {"level": "WARN", "requestId": request, "message": "two\nlines"},
                    {"level": "ERROR", "requestId": request}])
                self.check(f"Node: an error of {kind} as JSON",
                           (fault["errorType"], fault["errorMessage"], fault["stackTrace"][0]),
                           ("RangeError", "no price", "RangeError: no price"))

    def test_a_response_after_the_timeout_is_refused_and_the_next_one_served(self):
        self.late("Node", [*NODE, "app.handler"], {"app.mjs": NODE_MODULE})

    def test_it_ends_at_the_container_error_and_at_a_stop(self):
        self.ends("Node", NODE, {})

    def test_a_connection_that_was_closed_meanwhile_is_made_anew(self):
        self.closed_connections("Node", NODE)
