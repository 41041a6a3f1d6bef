"""Takes orders and shows them: POST /orders, GET /orders/{id}."""
import json
import os
import uuid

import boto3

TABLE = boto3.resource("dynamodb").Table(os.environ["TABLE"])
FUNCTIONS, QUEUES = boto3.client("lambda"), boto3.client("sqs")


def price_of(article):
    """What another function says."""
    answer = FUNCTIONS.invoke(FunctionName=os.environ["PRICES"], Payload=json.dumps({"article": article}))
    return json.load(answer["Payload"])["cents"]


def created(order):
    article, count = order["article"], int(order["count"])
    item = {"id": str(uuid.uuid4()), "article": article, "count": count, "cents": count * price_of(article),
            "state": "new"}
    TABLE.put_item(Item=item)
    QUEUES.send_message(QueueUrl=os.environ["QUEUE"], MessageBody=json.dumps({"id": item["id"]}))
    return item


def answer(status, value):
    return {"statusCode": status, "headers": {"content-type": "application/json"},
            "body": json.dumps(value, default=int)}


def handler(event, context):
    if event["routeKey"] == "POST /orders":
        return answer(201, created(json.loads(event["body"])))
    item = TABLE.get_item(Key={"id": event["pathParameters"]["id"]}, ConsistentRead=True).get("Item")
    return answer(200, item) if item else answer(404, {"message": "there is no such order"})
