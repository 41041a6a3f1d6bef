"""Checks six projects as they come from a clone, two of each dialect, one of them a monorepo with nested stacks: one
command, `lambda_local up`, and six parallel requests of a function that takes 0.2 s are answered. Prints how long it
took from the command to the last of the six, and the load of the machine (docs/peers.md). YAML needs PyYAML, and two of
them Node. The program is LAMBDA_LOCAL_PROGRAM, else ./lambda_local."""
import concurrent.futures
import importlib.util
import json
import os
import re
import shutil
import signal
import subprocess
import tempfile
import threading
import time
import urllib.request
from typing import Dict, List, Mapping, Optional, Sequence, Tuple

from tests import ROOT
from tests.library.cases import Case

TOOL = os.path.join(ROOT, "lambda_local")
HAS_YAML, HAS_NODE = bool(importlib.util.find_spec("yaml")), bool(shutil.which("node"))
READY_SECONDS = 60
PYTHON = '''import json, os, time
def handler(event, context):
    time.sleep(0.2)
    return {"statusCode": 200, "body": json.dumps({"id": event["pathParameters"]["id"], "table": os.environ["TABLE"]})}
'''
NODE = '''const wait = (ms) => new Promise((done) => setTimeout(done, ms));
exports.handler = async (event) => {
  await wait(200);
  return {statusCode: 200, body: JSON.stringify({id: event.pathParameters.id, table: process.env.TABLE})};
};
'''
SAM = '''AWSTemplateFormatVersion: '2010-09-09'
Transform: AWS::Serverless-2016-10-31
Parameters:
  Stage: {Type: String, Default: dev}
Globals:
  Function: {Runtime: python3.12, Timeout: 10, Environment: {Variables: {TABLE: !Ref Orders}}}
Resources:
  Orders: {Type: AWS::DynamoDB::Table, Properties: {TableName: !Sub 'orders-${Stage}'}}
  GetOrder:
    Type: AWS::Serverless::Function
    Properties:
      CodeUri: src/orders/
      Handler: app.handler
      Policies: [{DynamoDBReadPolicy: {TableName: !Ref Orders}}]
      Events: {Get: {Type: Api, Properties: {Path: '/orders/{id}', Method: get}}}
  Nightly:
    Type: AWS::Serverless::Function
    Properties:
      CodeUri: src/orders/
      Handler: app.handler
      Events: {Night: {Type: Schedule, Properties: {Schedule: 'cron(0 3 * * ? *)'}}}
'''
ROOT_STACK = '''Transform: AWS::Serverless-2016-10-31
Parameters:
  Stage: {Type: String, Default: dev}
Resources:
  Orders:
    Type: AWS::Serverless::Application
    Properties: {Location: services/orders/template.yaml, Parameters: {Table: !Sub 'orders-${Stage}'}}
  Users:
    Type: AWS::Serverless::Application
    Properties: {Location: ./services/users, Parameters: {Table: !Sub 'users-${Stage}'}}
'''
NESTED = '''Transform: AWS::Serverless-2016-10-31
Parameters: {Table: {Type: String}}
Globals: {Function: {Runtime: RUNTIME, Environment: {Variables: {TABLE: !Ref Table}}}}
Resources:
  Get:
    Type: AWS::Serverless::Function
    Properties:
      CodeUri: src/
      Handler: app.handler
      Events: {Get: {Type: HttpApi, Properties: {Path: '/NAME/{id}', Method: get}}}
'''
SERVERLESS = '''service: orders
frameworkVersion: '3'
useDotenv: true
provider:
  name: aws
  runtime: python3.12
  stage: ${opt:stage, 'dev'}
  environment: ${file(./config.yml):environment}
custom: {prefix: "${env:PREFIX}"}
functions:
  get:
    handler: src/app.handler
    events: [{httpApi: 'GET /orders/{id}'}]
'''
SERVERLESS_NODE = '''service: shop
provider: {name: aws, runtime: nodejs20.x, environment: {TABLE: "${self:service}-${sls:stage}"}}
package: {individually: true}
functions:
  - ${file(functions/orders.yml)}
  - ${file(functions/users.yml)}
'''
OF_NODE = "NAME:\n  handler: src/NAME.handler\n  events: [{http: {path: 'NAME/{id}', method: get, cors: true}}]\n"


def function_of_cdk(asset: str, **variables: object) -> Dict[str, object]:
    return {"Type": "AWS::Lambda::Function", "Properties": {
        "Code": {"S3Bucket": {"Fn::Sub": "cdk-hnb659fds-assets-${AWS::AccountId}-${AWS::Region}"},
                 "S3Key": f"{asset}.zip"},
        "Handler": "app.handler", "Runtime": "python3.12", "Timeout": 10, "Role": {"Fn::GetAtt": ["Role", "Arn"]},
        "Environment": {"Variables": variables}}, "DependsOn": ["Role"]}


def assets_of(*names: str) -> str:
    return json.dumps({"files": {name: {"source": {"path": f"asset.{name}", "packaging": "zip"}, "destinations": {
        "current": {"objectKey": f"{name}.zip"}}} for name in names}})


def manifest_of(*stacks: str) -> str:
    return json.dumps({"version": "36.0.0", "artifacts": {name: {
        "type": "aws:cloudformation:stack", "properties": {"templateFile": f"{name}.template.json"}}
        for name in stacks}})


ROLE = {"Type": "AWS::IAM::Role", "Properties": {}}
URI = {"Fn::Join": ["", ["arn:aws:apigateway:us-east-1:lambda:path/2015-03-31/functions/",
                         {"Fn::GetAtt": ["Get1", "Arn"]}, "/invocations"]]}
CDK_REST = {"Resources": {
    "Role": ROLE, "Get1": function_of_cdk("aa", TABLE="orders-dev"),
    "Api2": {"Type": "AWS::ApiGateway::RestApi", "Properties": {"Name": "Api"}},
    "Orders3": {"Type": "AWS::ApiGateway::Resource", "Properties": {
        "ParentId": {"Fn::GetAtt": ["Api2", "RootResourceId"]}, "PathPart": "orders", "RestApiId": {"Ref": "Api2"}}},
    "Id4": {"Type": "AWS::ApiGateway::Resource", "Properties": {
        "ParentId": {"Ref": "Orders3"}, "PathPart": "{id}", "RestApiId": {"Ref": "Api2"}}},
    "Method5": {"Type": "AWS::ApiGateway::Method", "Properties": {
        "HttpMethod": "GET", "ResourceId": {"Ref": "Id4"}, "RestApiId": {"Ref": "Api2"}, "AuthorizationType": "NONE",
        "Integration": {"Type": "AWS_PROXY", "IntegrationHttpMethod": "POST", "Uri": URI}}},
    "Stage6": {"Type": "AWS::ApiGateway::Stage", "Properties": {"StageName": "prod", "RestApiId": {"Ref": "Api2"}}}}}
CDK_DATA = {"Resources": {"Table": {"Type": "AWS::DynamoDB::Table", "Properties": {"TableName": "orders-dev"}}},
            "Outputs": {"Name": {"Value": {"Ref": "Table"}, "Export": {"Name": "Data:Table"}}}}
CDK_HTTP = {"Resources": {
    "Role": ROLE, "Get1": function_of_cdk("bb", TABLE={"Fn::ImportValue": "Data:Table"}),
    "Api2": {"Type": "AWS::ApiGatewayV2::Api", "Properties": {"Name": "Api", "ProtocolType": "HTTP"}},
    "Integration3": {"Type": "AWS::ApiGatewayV2::Integration", "Properties": {
        "ApiId": {"Ref": "Api2"}, "IntegrationType": "AWS_PROXY", "PayloadFormatVersion": "2.0",
        "IntegrationUri": {"Fn::GetAtt": ["Get1", "Arn"]}}},
    "Route4": {"Type": "AWS::ApiGatewayV2::Route", "Properties": {
        "ApiId": {"Ref": "Api2"}, "RouteKey": "GET /orders/{id}",
        "Target": {"Fn::Join": ["", ["integrations/", {"Ref": "Integration3"}]]}}}}}
Files = Mapping[str, str]
PROJECTS: Dict[str, Tuple[Files, Sequence[str], str]] = {
    "SAM": ({"template.yaml": SAM, "src/orders/app.py": PYTHON}, ("orders",), "orders-dev"),
    "SAM, a monorepo with nested stacks": ({
        "template.yaml": ROOT_STACK,
        "services/orders/template.yaml": NESTED.replace("RUNTIME", "python3.12").replace("NAME", "orders"),
        "services/orders/src/app.py": PYTHON,
        "services/users/template.yaml": NESTED.replace("RUNTIME", "nodejs20.x").replace("NAME", "users"),
        "services/users/src/app.js": NODE}, ("orders", "users"), "{}-dev"),
    "Serverless": ({"serverless.yml": SERVERLESS, ".env": "PREFIX=shop # of all\n", "src/app.py": PYTHON,
                    "config.yml": "environment: {TABLE: '${self:custom.prefix}-${self:provider.stage}'}\n"},
                   ("orders",), "shop-dev"),
    "Serverless, files of functions, Node": ({
        "serverless.yml": SERVERLESS_NODE, "functions/orders.yml": OF_NODE.replace("NAME", "orders"),
        "functions/users.yml": OF_NODE.replace("NAME", "users"), "src/orders.js": NODE, "src/users.js": NODE},
        ("orders", "users"), "shop-dev"),
    "CDK, a REST API": ({
        "cdk.json": "{}", "cdk.out/manifest.json": manifest_of("Shop"), "cdk.out/Shop.assets.json": assets_of("aa"),
        "cdk.out/Shop.template.json": json.dumps(CDK_REST), "cdk.out/asset.aa/app.py": PYTHON}, ("orders",),
        "orders-dev"),
    "CDK, two stacks": ({
        "cdk.json": "{}", "cdk.out/manifest.json": manifest_of("Data", "Web"), "cdk.out/Web.assets.json":
        assets_of("bb"), "cdk.out/Data.template.json": json.dumps(CDK_DATA), "cdk.out/Data.assets.json": assets_of(),
        "cdk.out/Web.template.json": json.dumps(CDK_HTTP), "cdk.out/asset.bb/app.py": PYTHON}, ("orders",),
        "orders-dev"),
}


def asked(url: str) -> object:
    with urllib.request.urlopen(url, timeout=30) as answer:
        return json.load(answer)


class Served:
    """`lambda_local up` in a folder, until it says that it is ready."""

    def __init__(self, folder: str) -> None:
        self.lines: List[str] = []
        self.ready = threading.Event()
        self.process = subprocess.Popen([TOOL, "up"], cwd=folder, stderr=subprocess.PIPE, stdout=subprocess.DEVNULL,
                                        text=True, start_new_session=True)
        self.reading = threading.Thread(target=self.read)
        self.reading.start()

    def read(self) -> None:
        assert self.process.stderr is not None
        for line in self.process.stderr:
            self.lines.append(line.rstrip())
            if re.search(r"\[up\] ready", line):
                self.ready.set()
        self.ready.set()  # (it has ended)

    @property
    def address(self) -> Optional[str]:
        found = re.search(r"routes: (http://\S+)", "\n".join(self.lines))
        return found[1] if found else None

    def end(self) -> int:
        if self.process.poll() is None:
            self.process.send_signal(signal.SIGINT)
        status = self.process.wait(30)
        self.reading.join()
        assert self.process.stderr is not None
        self.process.stderr.close()
        return status


class SixProjects(Case):
    def a_project(self, name: str, files: Files, routes: Sequence[str], table: str) -> None:
        with tempfile.TemporaryDirectory() as folder:
            for path, text in files.items():
                os.makedirs(os.path.dirname(os.path.join(folder, path)), exist_ok=True)
                with open(os.path.join(folder, path), "w", encoding="utf-8") as file:
                    file.write(text)
            begun = time.monotonic()
            served = Served(folder)
            try:
                served.ready.wait(READY_SECONDS)
                urls = [f"{served.address}/{routes[n % len(routes)]}/{n}" for n in range(6)]
                with concurrent.futures.ThreadPoolExecutor(6) as callers:
                    answers = list(callers.map(asked, urls)) if served.address else []
                took = time.monotonic() - begun
            finally:
                status = served.end()
            wanted = [{"id": str(n), "table": table.format(routes[n % len(routes)])} for n in range(6)]
            self.check(f"{name}: six at once are answered ({took:.1f} s from the command, load "
                       f"{os.getloadavg()[0]:.0f})", answers, wanted, shown=(answers, served.lines))
            self.check(f"{name}: nothing of it is ignored but what others serve", [
                line for line in served.lines if "ignores" in line and "another service must have" not in line], [])
            self.check(f"{name}: it ends", status, 0)

    def test_each_of_six_projects_answers_six_callers_at_once(self) -> None:
        for name, (files, routes, table) in PROJECTS.items():
            has_yaml = any(path.endswith((".yaml", ".yml")) for path in files)
            if (HAS_YAML or not has_yaml) and (HAS_NODE or NODE not in files.values()):
                self.a_project(name, files, routes, table)
