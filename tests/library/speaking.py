"""Functions and an extension that print as soon as they are invoked, and end their last line only with the next."""
SPEAKS = r"""import http.client, json, os, sys
connection = http.client.HTTPConnection(os.environ["AWS_LAMBDA_RUNTIME_API"])
def ask(method, path, body=None):
    connection.request(method, "/2018-06-01/runtime/invocation/" + path, body)
    reply = connection.getresponse()
    return reply.status, reply.headers, reply.read()
while True:
    status, headers, body = ask("GET", "next")
    if status != 200: break
    event = json.loads(body)
    for number in range(event["count"]): print(f"{event['name']} line {number}", flush=True)
    sys.stdout.write(f"{event['name']} ends"); sys.stdout.flush()
    ask("POST", headers["Lambda-Runtime-Aws-Request-Id"] + "/response", "1")
"""
OF_NODE = """export const run = async (event) => {
  for (let number = 0; number < event.count; number += 1) process.stdout.write(`${event.name} line ${number}\n`);
  process.stdout.write(`${event.name} ends`);
};
"""
AT_ONCE = """import sys
def run(event, context):
    for number in range(event["count"]): print(f"{event['name']} line {number}")
    sys.stdout.write(f"{event['name']} ends"); sys.stdout.flush()
"""
SPEAKING_EXTENSION = r"""import json, os, urllib.request
base = f"http://{os.environ['AWS_LAMBDA_RUNTIME_API']}/2020-01-01/extension/"
def ask(path, body, headers):
    return urllib.request.urlopen(urllib.request.Request(base + path, body, headers))
me = {"Lambda-Extension-Identifier": ask("register", b'{"events":["INVOKE"]}', {"Lambda-Extension-Name": "x"})
      .headers["Lambda-Extension-Identifier"]}
while True:
    event = json.loads(ask("event/next", None, me).read())
    print(f"extension {event['requestId']}", flush=True)
"""
