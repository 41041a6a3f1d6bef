#!/usr/bin/env python3
"""An extension that subscribes to telemetry and prints what it gets, an event in a line. Nothing here is of
lambda_local: it is what runs on Lambda too. ./lambda_local up starts it with the function, if UP.json has "telemetry":
true:

  {"functions": [{"name": "greet", "runtime": "python", "handler": "handler.greet", "telemetry": true,
                  "extensions": {"telemetry.py": "./telemetry.py"}}]}

usage: examples/telemetry.py [TYPE ..]   (of platform, function and extension: default platform function)"""
import http.client
import http.server
import json
import os
import sys
import threading

ADDRESS = os.environ.get("AWS_LAMBDA_RUNTIME_API", "127.0.0.1:9001")
EXTENSION = "/2020-01-01/extension/"
SCHEMA = "2022-12-13"


class Receiver(http.server.BaseHTTPRequestHandler):
    """Takes batches: a JSON array of events each. Lambda sends one again that is not answered with 200."""
    protocol_version = "HTTP/1.1"

    def do_POST(self):
        batch = json.loads(self.rfile.read(int(self.headers["Content-Length"])))
        for event in batch:
            print(event["type"], json.dumps(event["record"]), flush=True)
        self.send_response(200)
        self.send_header("Content-Length", "0")
        self.end_headers()

    def log_message(self, *_):
        pass


def ask(connection, method, path, body=None, headers={}):
    connection.request(method, path, None if body is None else json.dumps(body), headers)
    answer = connection.getresponse()
    return answer, answer.read().decode()


def main():
    server = http.server.ThreadingHTTPServer(("127.0.0.1", 0), Receiver)  # (on Lambda: the host sandbox.localdomain)
    server.daemon_threads = True
    threading.Thread(target=server.serve_forever, daemon=True).start()
    connection = http.client.HTTPConnection(ADDRESS)
    answer, _ = ask(connection, "POST", EXTENSION + "register", {"events": ["SHUTDOWN"]},
                    {"Lambda-Extension-Name": os.path.basename(__file__)})
    me = {"Lambda-Extension-Identifier": answer.getheader("Lambda-Extension-Identifier", "")}
    answer, said = ask(connection, "PUT", "/2022-07-01/telemetry", {
        "schemaVersion": SCHEMA, "types": sys.argv[1:] or ["platform", "function"],
        "buffering": {"timeoutMs": 25, "maxItems": 1000, "maxBytes": 262144},
        "destination": {"protocol": "HTTP", "URI": f"http://sandbox.localdomain:{server.server_port}/"}}, me)
    if answer.status != 200:
        print("no telemetry:", answer.status, said, file=sys.stderr, flush=True)
    try:
        ask(connection, "GET", EXTENSION + "event/next", None, me)  # until the shutdown, which is the only event
        ask(connection, "GET", EXTENSION + "event/next", None, me)  # this extension is done
    except (OSError, http.client.HTTPException):
        pass  # (the service may end before it answers)


if __name__ == "__main__":
    main()
