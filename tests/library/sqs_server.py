"""A small server of the part of SQS's API that a consumer needs, in both protocols that SDKs speak: forms with answers
in XML, and JSON (SQS API Reference, "ReceiveMessage", "DeleteMessageBatch", "GetQueueAttributes")."""
import hashlib
import http.server
import json
import re
import threading
import time
import urllib.parse
import uuid
from xml.sax.saxutils import escape

PATH = "/123456789012/orders"
NAMESPACE = "http://queue.amazonaws.com/doc/2012-11-05/"


class Queue:
    """Messages, each invisible for a while once it was received."""

    def __init__(self, visibility=30.0):
        self.visibility, self.lock, self.messages, self.asked = visibility, threading.Lock(), [], []
        self.wrong = None  # an answer in place of each right one

    def send(self, body, attributes={}):
        identifier = str(uuid.uuid4())
        with self.lock:
            self.messages.append({"id": identifier, "body": body, "attributes": attributes, "count": 0, "until": 0.0,
                                  "sent": int(1000 * time.time())})
        return identifier

    def bodies(self):
        with self.lock:
            return sorted(message["body"] for message in self.messages)

    def receive(self, count, seconds):
        end = time.monotonic() + seconds
        while True:
            with self.lock:
                found = [one for one in self.messages if one["until"] <= time.monotonic()][:count]
                for message in found:
                    message.update(until=time.monotonic() + self.visibility, count=message["count"] + 1,
                                   handle=str(uuid.uuid4()))
                if found or time.monotonic() > end:
                    return [dict(message) for message in found]
            time.sleep(0.02)

    def delete(self, handle):
        with self.lock:
            self.messages = [message for message in self.messages if message.get("handle") != handle]


def fields_of(message):
    """What an answer has of a message."""
    return {"MessageId": message["id"], "ReceiptHandle": message["handle"], "Body": message["body"],
            "MD5OfBody": hashlib.md5(message["body"].encode()).hexdigest(),
            "Attributes": {"ApproximateReceiveCount": str(message["count"]), "SentTimestamp": str(message["sent"]),
                           "SenderId": "AIDAEXAMPLE"},
            "MessageAttributes": message["attributes"]}


def in_xml(message):
    parts = [f"<{name}>{escape(value)}</{name}>" for name, value in message.items() if isinstance(value, str)]
    parts += [f"<Attribute><Name>{name}</Name><Value>{value}</Value></Attribute>"
              for name, value in message["Attributes"].items()]
    parts += [f"<MessageAttribute><Name>{name}</Name><Value>" + "".join(
        f"<{kind}>{escape(text)}</{kind}>" for kind, text in value.items()) + "</Value></MessageAttribute>"
        for name, value in message["MessageAttributes"].items()]
    return f"<Message>{''.join(parts)}</Message>"


class Handler(http.server.BaseHTTPRequestHandler):
    protocol_version = "HTTP/1.1"

    def log_message(self, *_):
        pass

    def do_POST(self):
        body = self.rfile.read(int(self.headers.get("Content-Length", 0)))
        assert isinstance(self.server, OfQueue)
        queue, target = self.server.queue, self.headers.get("X-Amz-Target")
        if queue.wrong is not None:
            return self.answer(*queue.wrong)
        if target:
            action, given = target.partition(".")[2], json.loads(body)
            handles = [entry["ReceiptHandle"] for entry in given.get("Entries", ())]
        else:
            given = dict(urllib.parse.parse_qsl(body.decode()))
            action = given["Action"]
            handles = [value for name, value in sorted(given.items()) if name.endswith(".ReceiptHandle")]
        queue.asked.append((action, self.headers.get("Authorization", "")))
        getattr(self, action)(queue, given, handles, bool(target))

    def ReceiveMessage(self, queue, given, _handles, is_json):
        messages = [fields_of(message) for message in queue.receive(
            int(given.get("MaxNumberOfMessages", 1)), float(given.get("WaitTimeSeconds", 0)))]
        self.result("ReceiveMessage", {"Messages": messages} if messages else {}, "".join(map(in_xml, messages)),
                    is_json)

    def DeleteMessageBatch(self, queue, _given, handles, is_json):
        for handle in handles:
            queue.delete(handle)
        numbers = [str(number) for number in range(len(handles))]
        self.result("DeleteMessageBatch", {"Successful": [{"Id": number} for number in numbers]}, "".join(
            f"<DeleteMessageBatchResultEntry><Id>{number}</Id></DeleteMessageBatchResultEntry>" for number in numbers),
            is_json)

    def GetQueueAttributes(self, _queue, _given, _handles, is_json):
        arn = "arn:aws:sqs:eu-west-1:123456789012:orders"
        self.result("GetQueueAttributes", {"Attributes": {"QueueArn": arn}},
                    f"<Attribute><Name>QueueArn</Name><Value>{arn}</Value></Attribute>", is_json)

    def result(self, action, value, inside, is_json):
        if is_json:
            return self.answer(200, json.dumps(value).encode(), "application/x-amz-json-1.0")
        self.answer(200, (f'<{action}Response xmlns="{NAMESPACE}"><{action}Result>{inside}</{action}Result>'
                          f"<ResponseMetadata><RequestId>{uuid.uuid4()}</RequestId></ResponseMetadata>"
                          f"</{action}Response>").encode())

    def answer(self, status, body, kind="text/xml"):
        self.send_response(status)
        self.send_header("Content-Type", kind)
        self.send_header("Content-Length", str(len(body)))
        self.end_headers()
        self.wfile.write(body)


class OfQueue(http.server.ThreadingHTTPServer):
    daemon_threads = True

    def __init__(self, queue):
        super().__init__(("127.0.0.1", 0), Handler)
        self.queue = queue


class Server:
    """A server with one queue, whose address is `url`."""

    def __init__(self, **members):
        self.queue = Queue(**members)
        self.server = OfQueue(self.queue)
        self.url = f"http://127.0.0.1:{self.server.server_address[1]}{PATH}"

    def __enter__(self):
        self.thread = threading.Thread(target=self.server.serve_forever, kwargs={"poll_interval": 0.05})
        self.thread.start()
        return self

    def __exit__(self, *_):
        self.server.shutdown()
        self.thread.join()
        self.server.server_close()

    def is_signed_with(self, key):
        """Whether each request was signed with this access key."""
        return all(re.search(f"Credential={key}/", signature) for _, signature in self.queue.asked)
