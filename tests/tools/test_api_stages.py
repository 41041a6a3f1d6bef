"""Checks stages of APIs: with `stageInPath` of an API, or `--stage-in-path`, the path of a request begins with the
stage of its route, as at an API's own address, and else it does not; the event is the same. What is expected is what
the API Gateway Developer Guide has on "Stages", "Set up Lambda proxy integrations" and "Create AWS Lambda proxy
integrations for HTTP APIs". The program is LAMBDA_LOCAL_PROGRAM, else ./lambda_local."""
import contextlib
import json
import os
import re
from typing import Dict, Iterator, List, Tuple

from lambda_local.configuration import Members
from lambda_local.front import settings
from lambda_local.up.project import with_stages
from tests.library.cases import Case
from tests.library.events_kit import READY, Caller, caller_of
from tests.library.project_kit import folder_of, made_by, sam
from tests.library.up_kit import Up

APP = '''import json, os
def run(event, context):
    return {"statusCode": 200, "body": json.dumps({**event, "at": os.environ["LAMBDA_LOCAL_ROUTES"]})}
'''
ROUTES: Members = {"GET /orders/{id}": "f", "GET /": "f"}


def paths_of(event: Members) -> Tuple[object, ...]:
    """What an event says of its path and its stage."""
    context = event["requestContext"]
    if "rawPath" in event:
        return event["rawPath"], context["http"]["path"], context["stage"], event["routeKey"]
    return event["path"], context["path"], context["stage"], event["resource"]


class ApiStages(Case):
    @contextlib.contextmanager
    def running(self, routes: Members, api: Members, *options: str) -> Iterator[Tuple[Up, Caller]]:
        function = {"name": "f", "runtime": "python", "handler": "app.run"}
        up = Up(*READY, *options, functions=[function], app=APP, whole={"routes": routes, "api": api})
        with caller_of(self, up, lambda: next(
                found[1] for line in up.lines for found in [re.search(r"routes: (\S+)$", line)] if found)) as caller:
            yield up, caller

    def asked(self, caller: Caller, path: str) -> Tuple[object, ...]:
        """What the event of a request says; the status and the body of one that no route takes."""
        status, _, body = caller.ask("GET", path)
        return paths_of(json.loads(body)) if status == 200 else (status, body.decode())

    def test_a_stage_is_part_of_the_path_as_on_AWS(self) -> None:
        forbidden = (403, '{"message": "Forbidden"}')
        no_route, not_found = (403, '{"message": "Missing Authentication Token"}'), (404, '{"message": "Not Found"}')
        of_rest = ("/orders/7", "/prod/orders/7", "prod", "/orders/{id}")
        of_http = ("/prod/orders/7", "/prod/orders/7", "prod", "GET /orders/{id}")
        of_old = ("/prod/orders/7", "/prod/orders/7", "prod", "/orders/{id}")
        cases: List[Tuple[str, Members, Dict[str, Tuple[object, ...]]]] = [
            ("a REST API", {"payload": "1.0", "stage": "prod"}, {"/orders/7": of_rest, "/prod/orders/7": no_route}),
            ("a REST API with its stage", {"payload": "1.0", "stage": "prod", "stageInPath": True}, {
                "/prod/orders/7": of_rest, "/prod": ("/", "/prod", "prod", "/"), "/prod/": ("/", "/prod/", "prod", "/"),
                "/orders/7": forbidden, "/other/orders/7": forbidden, "/prod/none": no_route, "/produ": forbidden}),
            ("an HTTP API", {"stage": "prod"}, {"/orders/7": of_http, "/prod/orders/7": not_found}),
            ("an HTTP API with its stage", {"stage": "prod", "stageInPath": True}, {
                "/prod/orders/7": of_http, "/prod": ("/prod", "/prod", "prod", "GET /"), "/orders/7": not_found}),
            ("an HTTP API with format 1.0", {"stage": "prod", "stageInPath": True, "payload": "1.0", "type": "HTTP"},
             {"/prod/orders/7": of_old}),
            ("one whose stage is in no path", {"stageInPath": True}, {
                "/orders/7": ("/orders/7", "/orders/7", "$default", "GET /orders/{id}")})]
        for name, api, wanted in cases:
            with self.running(ROUTES, api) as (up, caller):
                for path, seen in wanted.items():
                    self.check(f"{name}: {path}", self.asked(caller, path), seen)
                is_in = api.get("stageInPath") and "stage" in api
                link = r"routes: http://127\.0\.0\.1:\d+" + ("/prod$" if is_in else "$")
                self.check(f"{name}: its address", up.count(link), 1)

    def test_the_option_puts_each_stage_into_its_path(self) -> None:
        """The same by the option, for routes of several stages and of none."""
        routes = {"GET /orders/{id}": {"function": "f", "payload": "1.0", "stage": "dev"},
                  "GET /old/{id}": {"function": "f", "stage": "v1"}, "GET /new/{id}": "f"}
        with self.running(routes, {}, "--stage-in-path") as (up, caller):
            self.check("each of its own", [self.asked(caller, path)[2] for path in (
                "/dev/orders/1", "/v1/old/1", "/new/1")], ["dev", "v1", "$default"])
            self.check("and of no other", [self.asked(caller, path)[0] for path in (
                "/v1/orders/1", "/orders/1", "/dev/new/1")], [404] * 3)
            links = [line.partition("] ")[2].strip() for line in up.lines if " -> f" in line]
            self.check("links", [re.sub(r":\d+", "", link) for link in links], [
                "GET http://127.0.0.1/dev/orders/{id} -> f", "GET http://127.0.0.1/v1/old/{id} -> f",
                "GET http://127.0.0.1/new/{id} -> f"])
        self.check("further APIs", with_stages({"functions": [], "apis": {"A": {"routes": {}, "port": 1}}})["apis"],
                   {"A": {"routes": {}, "port": 1, "stageInPath": True}})

    def test_the_address_of_the_routes_is_below_the_stage(self) -> None:
        """The address that a command and functions have is below the stage."""
        with self.running(ROUTES, {"payload": "1.0", "stage": "prod"}, "--stage-in-path") as (_, caller):
            at = json.loads(caller.ask("GET", "/prod/orders/7")[2])["at"]
            self.check("LAMBDA_LOCAL_ROUTES", at.rpartition("/")[2], "prod")

    def test_mistakes_of_stages_are_told(self) -> None:
        for api, wanted in (
                ({"stage": "$default"}, None), ({"stage": "prod"}, None),
                ({"payload": "1.0", "stage": "$default"},
                 'api: the stage $default is of an HTTP API: write another one, or "type": "HTTP"'),
                ({"stageInPath": "yes"}, 'api: stageInPath must be true or false, not "yes"')):
            whole = {"functions": [{"name": "f"}], "routes": {"GET /": "f"}, "api": api}
            self.check(f"a mistake: {api}", next(settings.mistakes(whole), None), wanted)

    def test_a_template_names_the_stage_in_each_form(self) -> None:
        """StageName of each kind."""
        event = {"Type": "HttpApi", "Properties": {"Path": "/a", "Method": "GET", "ApiId": {"Ref": "Shop"}}}
        of_sam = {"Resources": {"F": sam(Events={"A": event}), "Shop": {
            "Type": "AWS::Serverless::HttpApi", "Properties": {"StageName": {"Fn::Sub": "${AWS::Region}"},
                                                              "StageVariables": {"table": "orders"}}}}}
        integration = {"ApiId": {"Ref": "Api"}, "IntegrationType": "AWS_PROXY", "PayloadFormatVersion": "2.0",
                       "IntegrationUri": {"Fn::GetAtt": ["F", "Arn"]}}
        of_cdk = {"Resources": {
            "F": sam(), "Api": {"Type": "AWS::ApiGatewayV2::Api", "Properties": {"ProtocolType": "HTTP"}},
            "I": {"Type": "AWS::ApiGatewayV2::Integration", "Properties": integration},
            "R": {"Type": "AWS::ApiGatewayV2::Route", "Properties": {
                "ApiId": {"Ref": "Api"}, "RouteKey": "GET /a", "Target": {"Fn::Join": ["/", ["integrations",
                                                                                            {"Ref": "I"}]]}}},
            "S": {"Type": "AWS::ApiGatewayV2::Stage", "Properties": {"ApiId": {"Ref": "Api"}, "StageName": "beta"}}}}
        with folder_of(sam_0_json=of_sam, cdk_0_json=of_cdk) as folder:
            self.check("SAM's HttpApi", made_by(os.path.join(folder, "sam.json"))[1].get("api"),
                       {"stage": "us-east-1", "stageVariables": {"table": "orders"}})
            self.check("a stage of CDK's", made_by(os.path.join(folder, "cdk.json"))[1].get("api"), {"stage": "beta"})
