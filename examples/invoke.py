#!/usr/bin/env python3
"""Invokes a function by boto3. Any credentials do; retries are off, so that a throttle shows.

usage: examples/invoke.py [NAME [PAYLOAD [ADDRESS]]]   (default: greet '{"name":"Ada"}' 127.0.0.1:9000)"""
import sys

import boto3
from botocore.config import Config

WORDS = sys.argv[1:] + ["greet", '{"name":"Ada"}', "127.0.0.1:9000"][len(sys.argv) - 1:]


def main():
    client = boto3.client(
        "lambda", endpoint_url="http://" + WORDS[2], region_name="us-east-2",
        aws_access_key_id="any", aws_secret_access_key="any",
        config=Config(retries={"max_attempts": 0}, read_timeout=900))
    answer = client.invoke(FunctionName=WORDS[0], Payload=WORDS[1])
    print(answer["StatusCode"], answer.get("FunctionError", "-"), answer["Payload"].read().decode())


if __name__ == "__main__":
    main()
