#!/usr/bin/env python3
"""An extension of one environment: it is notified of each invocation and of the shutdown, and prints these events.
Start it before the environment's runtime: once the environment has become idle, no extension can register.

usage: examples/extension.py [ADDRESS]   (the environment's: default AWS_LAMBDA_RUNTIME_API, else 127.0.0.1:9001)"""
import contextlib
import http.client
import json
import os
import sys

ADDRESS = sys.argv[1] if len(sys.argv) > 1 else os.environ.get("AWS_LAMBDA_RUNTIME_API", "127.0.0.1:9001")
PATH = "/2020-01-01/extension/"


def ask(connection, method, path, body=None, headers={}):
    for is_last in (False, True):
        try:
            connection.request(method, PATH + path, body, headers)
            answer = connection.getresponse()
            return answer, answer.read().decode()
        except (ConnectionError, http.client.HTTPException):
            # (a connection that asks nothing may be closed after a while)
            connection.close()
            if is_last:
                raise


def main():
    connection = http.client.HTTPConnection(ADDRESS)
    answer, registered = ask(connection, "POST", "register", json.dumps({"events": ["INVOKE", "SHUTDOWN"]}),
                             {"Lambda-Extension-Name": "extension.py"})
    print(answer.status, registered, flush=True)
    me = {"Lambda-Extension-Identifier": answer.getheader("Lambda-Extension-Identifier")}
    while answer.status == 200:
        answer, event = ask(connection, "GET", "event/next", headers=me)
        print(answer.status, event, flush=True)
        if json.loads(event).get("eventType") == "SHUTDOWN":
            # The next event that is asked for says that this extension is done. (The service may end before it
            # answers.)
            with contextlib.suppress(OSError, http.client.HTTPException):
                ask(connection, "GET", "event/next", headers=me)
            return


if __name__ == "__main__":
    main()
