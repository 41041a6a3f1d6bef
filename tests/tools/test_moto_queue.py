"""Checks a queue of moto's server as an event source: batches, failures in a batch, and what the queue itself does with
them. It needs a Python on PATH that has moto's server and boto3 (pip install 'moto[server]' boto3), and says so if none
has."""
import json
import os
import time

from tests.library.cases import Case
from tests.library.moto_server import WITH_MOTO, environ, moto
from tests.library.up_kit import Up, until

APP = '''import json
def run(event, context):
    bodies = [record["body"] for record in event["Records"]]
    with open("batches.txt", "a") as file:
        print(json.dumps([event["Records"][0]["eventSource"], bodies]), file=file)
    return {"batchItemFailures": [{"itemIdentifier": record["messageId"]} for record in event["Records"]
                                  if record["body"] == "bad"]}
'''
# With the queue, one for dead letters, and twelve messages; then what is left of both.
MAKE = '''
sqs = client("sqs")
dead = sqs.create_queue(QueueName="dead")["QueueUrl"]
arn = sqs.get_queue_attributes(QueueUrl=dead, AttributeNames=["QueueArn"])["Attributes"]["QueueArn"]
url = sqs.create_queue(QueueName="jobs", Attributes={"VisibilityTimeout": "1", "RedrivePolicy": json.dumps(
    {"deadLetterTargetArn": arn, "maxReceiveCount": "2"})})["QueueUrl"]
for number in range(11):
    sqs.send_message(QueueUrl=url, MessageBody=f"job {number}")
sqs.send_message(QueueUrl=url, MessageBody="bad")
answer = [url, dead]
'''
COUNT = '''
answer = []
for url in given:
    found = client("sqs").get_queue_attributes(QueueUrl=url, AttributeNames=["All"])["Attributes"]
    answer.append(int(found["ApproximateNumberOfMessages"]) + int(found["ApproximateNumberOfMessagesNotVisible"]))
'''


@WITH_MOTO
class MotoQueue(Case):
    def test_a_queue(self):
        with moto(self) as server:
            queue, dead = server.asked(MAKE)
            up = Up(app=APP, functions=[{"name": "f", "runtime": "python", "handler": "app.run", "queue": {
                "url": queue, "batchSize": 5, "window": 1}}], environ=environ())
            self.check("up is ready", up.until("ready"))
            self.check("the queue is empty in the end, and the message that fails is a dead letter", until(
                lambda: server.asked(COUNT, [queue, dead]) == [0, 1], 90))
            time.sleep(0.5)
            with open(os.path.join(up.at, "batches.txt")) as file:
                batches = [json.loads(line) for line in file]
            up.end()
            bodies = [body for _, several in batches for body in several]
            self.check("each batch is of SQS, and has at most five", [one for one in batches if one[0] != "aws:sqs"
                                                                      or not 0 < len(one[1]) <= 5], [])
            self.check("each job came once", sorted(body for body in bodies if body != "bad"),
                       sorted(f"job {number}" for number in range(11)))
            self.check("the one that fails came as often as the queue lets it", bodies.count("bad"), 2)
