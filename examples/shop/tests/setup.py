"""Makes the table and the queue of the shop at the server of AWS_ENDPOINT_URL."""
import os

import boto3

WAY = {"endpoint_url": os.environ["AWS_ENDPOINT_URL"], "region_name": "us-east-1", "aws_access_key_id": "local",
       "aws_secret_access_key": "local"}
boto3.client("dynamodb", **WAY).create_table(
    TableName="orders-test", BillingMode="PAY_PER_REQUEST", KeySchema=[{"AttributeName": "id", "KeyType": "HASH"}],
    AttributeDefinitions=[{"AttributeName": "id", "AttributeType": "S"}])
boto3.client("sqs", **WAY).create_queue(QueueName="packing-test")
