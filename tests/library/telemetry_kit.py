"""Extensions that subscribe to telemetry, for tests with lambda_local up: what each is answered, and which events it
gets."""
import json
import os
import sys

# ./probe NAME SETTINGS: notes answers and events, a line each, in NAME.jsonl. SETTINGS are in JSON: "path" and "body"
# of its subscription (none: it does not subscribe), "protocol", "events" of its registration, and what its receiver
# does: "refuses" so many batches with 500, "stalls" once until there is this file, after "after" batches, "hangs", or
# sends "garbage"; "is_down" for these seconds. "wrong" are further subscriptions, [path, body, headers] each; a body
# may be a length. "prints" is what it prints at each event. One that "ignores" its shutdown lives on.
PROBE = f'''#!{sys.executable}
import http.client, http.server, json, os, socket, sys, threading, time
NAME, SET = sys.argv[1], json.loads(sys.argv[2])
API = http.client.HTTPConnection(os.environ["AWS_LAMBDA_RUNTIME_API"])
FILE, LOCK, STATE = open(NAME + ".jsonl", "a"), threading.Lock(), dict(batches=0, refused=0)
def note(kind, value):
    with LOCK:
        FILE.write(json.dumps([kind, value]) + "\\n")
        FILE.flush()
def stall():
    STATE["batches"] += 1
    while SET.get("stalls") and STATE["batches"] == SET.get("after", 1) and not os.path.exists(SET["stalls"]):
        time.sleep(0.05)
class Receiver(http.server.BaseHTTPRequestHandler):
    protocol_version = "HTTP/1.1"
    def do_POST(self):
        body = self.rfile.read(int(self.headers["Content-Length"]))
        if SET.get("hangs"): time.sleep(600)
        if SET.get("garbage"):
            self.wfile.write(b"\\x00 what? \\r\\n\\r\\n" * 100)
            self.close_connection = True
            return
        if STATE["refused"] < SET.get("refuses", 0):
            STATE["refused"] += 1
            status = 500
        else:
            stall()
            note("batch", [self.command, self.path, self.headers["Host"], self.headers["Content-Type"], len(body)])
            for event in json.loads(body): note("event", event)
            status = 200
        self.send_response(status)
        self.send_header("Content-Length", "2")
        self.end_headers()
        self.wfile.write(b"ok")
    do_PUT = do_POST
    def log_message(self, *_): pass
def listen_tcp(listener):
    while True:
        peer, _ = listener.accept()
        with peer, peer.makefile("rb") as lines:
            for line in lines:
                stall()
                note("event", json.loads(line))
def ask(method, path, body=None, headers=dict()):
    if isinstance(body, int): body = "x" * body
    API.request(method, path, body, headers)
    answer = API.getresponse()
    return answer.status, answer.headers, answer.read().decode()
if SET.get("protocol") == "TCP":
    listener = socket.create_server(("127.0.0.1", 0))
    port, serve = listener.getsockname()[1], lambda: listen_tcp(listener)
    destination = dict(protocol="TCP", port=port)
else:
    class Late(http.server.ThreadingHTTPServer):
        daemon_threads = True
        def server_activate(self): pass
    server = Late(("127.0.0.1", 0), Receiver)
    port = server.server_port
    def serve():
        time.sleep(SET.get("is_down", 0))
        http.server.ThreadingHTTPServer.server_activate(server)
        server.serve_forever()
    destination = dict(protocol="HTTP", URI="http://sandbox.localdomain:%d/got?it" % port)
if not SET.get("is_down"):
    threading.Thread(target=serve, daemon=True).start()
    if SET.get("protocol") != "TCP": time.sleep(0.2)
else:
    threading.Thread(target=serve, daemon=True).start()
for path, body, headers in SET.get("early", []):
    note("early", ask("PUT", path, body, headers)[::2])
wanted = json.dumps(dict(events=SET.get("events", ["SHUTDOWN"])))
status, headers, _ = ask("POST", "/2020-01-01/extension/register", wanted, {{"Lambda-Extension-Name": NAME}})
me = {{"Lambda-Extension-Identifier": headers["Lambda-Extension-Identifier"]}}
if SET.get("path"):
    status, headers, text = ask("PUT", SET["path"], json.dumps(dict(SET["body"], destination=destination)), me)
    note("subscribed", [status, headers["Content-Type"], text])
for path, body, headers in SET.get("wrong", []):
    note("wrong", ask("PUT", path, body, dict(me, **headers))[::2])
while True:
    status, _, event = ask("GET", "/2020-01-01/extension/event/next", None, me)
    kind = json.loads(event).get("eventType")
    note("next", kind)
    if SET.get("prints"): print(SET["prints"], kind, flush=True)
    if status != 200: sys.exit(1)
    for path, body, headers in SET.get("late", []):
        note("late", ask("PUT", path, body, dict(me, **headers))[::2])
    if kind == "SHUTDOWN" and SET.get("ignores"): time.sleep(60)
    if kind == "SHUTDOWN":
        ask("GET", "/2020-01-01/extension/event/next", None, me)
        sys.exit(0)
'''
TELEMETRY, LOGS = "/2022-07-01/telemetry", "/2020-08-15/logs"
ALL = ["platform", "function", "extension"]
APP = '''import json, os, time
def run(event, context):
    for line in event.get("lines", ()): print(line)
    for number in range(event.get("count", 0)): print(number)
    do = event.get("do")
    if do == "fail": raise KeyError("x")
    if do == "exit": os._exit(7)
    if do == "hang": time.sleep(60)
    if do == "large": return "x" * (6 << 20)
    return event.get("returns", 1)
'''


def subscription(types=ALL, schema="2022-12-13", **buffering):
    return {"schemaVersion": schema, "types": types, "buffering": buffering or {"timeoutMs": 25}}


def probe(path=TELEMETRY, body=None, **settings):
    """The settings of a probe that subscribes."""
    return {"path": path, "body": body or subscription(), **settings}


def function(extensions, **members):
    """A function with these probes, by their names."""
    return {"name": "f", "runtime": "python", "handler": "app.run", "telemetry": True,
            "extensions": {name: ["./probe", name, json.dumps(settings)] for name, settings in extensions.items()},
            **members}


def noted(up, name, *kinds):
    """What a probe has noted of these kinds, in order."""
    try:
        with open(os.path.join(up.at, f"{name}.jsonl")) as file:
            lines = [json.loads(line) for line in file.read().split("\n")[:-1]]
    except FileNotFoundError:
        return []
    return [value for kind, value in lines if kind in kinds] if len(kinds) == 1 else [
        [kind, value] for kind, value in lines if kind in kinds]


def events(up, name="x"):
    return noted(up, name, "event")


def types(found):
    """Of events, with their status."""
    return [event["type"].replace("platform.", "") + (
        ":" + event["record"]["status"] if isinstance(event["record"], dict) and "status" in event["record"] else "")
        for event in found]
