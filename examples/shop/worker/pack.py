"""Packs what has been ordered: messages of a queue. One that cannot be packed stays in the queue."""
import json
import os

import boto3

TABLE = boto3.resource("dynamodb").Table(os.environ["TABLE"])


def pack(message):
    TABLE.update_item(Key={"id": message["id"]}, UpdateExpression="SET #s = :packed",
                      ConditionExpression="attribute_exists(id)", ExpressionAttributeNames={"#s": "state"},
                      ExpressionAttributeValues={":packed": "packed"})


def handler(event, context):
    failed = []
    for record in event["Records"]:
        try:
            pack(json.loads(record["body"]))
        except Exception as fault:
            print("not packed:", record["body"], fault)
            failed.append({"itemIdentifier": record["messageId"]})
    return {"batchItemFailures": failed}
