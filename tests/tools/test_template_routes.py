"""Checks what lambda_local from_template makes of Function URLs, of routes and of their APIs, in SAM, CloudFormation,
CDK and Serverless templates, as their public references have them, and that what it makes runs. The program is
LAMBDA_LOCAL_PROGRAM, else ./lambda_local."""
import json
import re
from typing import Dict

from lambda_local.configuration import Members
from tests.library.cases import Case
from tests.library.events_kit import READY, READY_SECONDS, Caller
from tests.library.template_kit import up_and_said
from tests.library.up_kit import Up


def function(**events):
    """A function of SAM with these events."""
    return {"Type": "AWS::Serverless::Function", "Properties": {"Runtime": "provided", "Events": events}}


def event(kind, path, method="get", **more):
    return {"Type": kind, "Properties": {"Path": path, "Method": method, **more}}


def uri_of(key):
    """As CDK writes the URI of a Lambda integration."""
    return {"Fn::Join": ["", ["arn:", {"Ref": "AWS::Partition"}, ":apigateway:", {"Ref": "AWS::Region"},
                              ":lambda:path/2015-03-31/functions/", {"Fn::GetAtt": [key, "Arn"]}, "/invocations"]]}


def of_type(kind, **properties):
    return {"Type": f"AWS::{kind}", "Properties": properties}


def method(api, resource, name, **integration):
    return of_type("ApiGateway::Method", HttpMethod=name, ResourceId=resource, RestApiId={"Ref": api},
                   AuthorizationType="NONE", Integration=integration)


FUNCTIONS = {key: of_type("Lambda::Function", Runtime="provided", Handler="x") for key in ("Pay1", "Ship2")}


# As SAM's own first project has it
APP = """import json
def lambda_handler(event, context):
    item = event["pathParameters"]["id"] + " " + event["requestContext"]["identity"]["sourceIp"]
    return {"statusCode": 200, "multiValueHeaders": {"Set-Cookie": ["a=1", "b=2"]},
            "body": json.dumps({"message": event["httpMethod"] + " " + event["requestContext"]["path"] + " " + item})}
"""


class TemplateRoutes(Case):
    def test_URLs_and_routes_of_SAM_are_taken(self):
        """Function URLs and HTTP routes, of SAM and of Serverless, in JSON."""
        event = {"HttpApi": lambda **properties: {"Type": "HttpApi", "Properties": properties},
                 "Api": lambda **properties: {"Type": "Api", "Properties": properties}}
        cors = {"AllowOrigins": ["https://shop.example"], "AllowCredentials": True, "MaxAge": 60, "AllowMethods": "x"}
        made, said = up_and_said({"Resources": {
            "F": {"Type": "AWS::Serverless::Function", "Properties": {
                "Runtime": "provided", "FunctionUrlConfig": {"AuthType": "AWS_IAM", "Cors": cors},
                "Events": {"A": event["HttpApi"](Path="/orders/{id}", Method="get"),
                           "B": event["Api"](Path="/all/{proxy+}", Method="ANY"),
                           "C": {"Type": "S3", "Properties": {}}}}},
            "G": {"Type": "AWS::Serverless::Function", "Properties": {
                "Runtime": "provided", "FunctionUrlConfig": {"AuthType": "NONE"},
                "Events": {"A": {"Type": "HttpApi"}, "B": event["HttpApi"](Path="/orders/{other}", Method="GET")}}}}})
        self.check("SAM: routes", made["routes"], {
            "GET /orders/{id}": "F", "ANY /all/{proxy+}": {"function": "F", "payload": "1.0", "stage": "Prod"},
            "$default": "G"})
        self.check("SAM: URLs", [function["url"] for function in made["functions"]],
                   [{"cors": {"allowOrigins": ["https://shop.example"], "allowCredentials": True, "maxAge": 60}}, True])
        for words in ("F: its URL takes requests without a signature here",
                      "F: ignores allowMethods of the Cors of its URL: x",
                      "F: ignores its event C (S3)",
                      "G: ignores the route GET /orders/{other}, since F has GET /orders/{id}"):
            self.check(f"SAM: {words}", words in said)

    def test_URLs_and_routes_of_Serverless_are_taken(self):
        made, said = up_and_said({"service": "s", "provider": {"runtime": "provided"}, "functions": {
            "f": {"handler": "x", "url": True, "events": [
                {"httpApi": "GET /a/{b}"}, {"httpApi": {"method": "*", "path": "/c"}}, {"httpApi": "*"},
                {"http": {"path": "d", "method": "post"}}, {"sqs": "arn"}]},
            "g": {"handler": "x", "url": {"cors": {"allowedOrigins": ["*"]}}}}})
        self.check("Serverless: routes", made["routes"],
                   {"GET /a/{b}": "s-dev-f", "ANY /c": "s-dev-f", "$default": "s-dev-f",
                    "POST /d": {"function": "s-dev-f", "payload": "1.0", "stage": "dev"}})
        self.check("Serverless: URLs", [function["url"] for function in made["functions"]],
                   [True, {"cors": {"allowOrigins": ["*"]}}])
        self.check("Serverless: what is left out", "s-dev-f: its event sqs, SQS, is not polled: set" in said)

    def test_URLs_that_are_resources_are_taken(self):
        """AWS::Lambda::Url, as CDK writes it beside its function."""
        def url(target, **properties):
            return {"Type": "AWS::Lambda::Url",
                    "Properties": {"AuthType": "NONE", "TargetFunctionArn": target, **properties}}

        function = {"Type": "AWS::Lambda::Function", "Properties": {"Runtime": "provided"}}
        named = {"Type": "AWS::Lambda::Function", "Properties": {"Runtime": "provided", "FunctionName": "shop-g"}}
        functions = {"F": function, "G": named, "H": function, "I": function}
        cors = {"AllowOrigins": ["https://shop.example"], "AllowMethods": ["GET"], "AllowHeaders": ["x-one"],
                "ExposeHeaders": ["x-two"], "AllowCredentials": True, "MaxAge": 60}
        made, said = up_and_said({"Conditions": {"Never": {"Fn::Equals": ["a", "b"]}}, "Resources": {
            **functions, "FUrl": url({"Fn::GetAtt": ["F", "Arn"]}, Cors=cors, InvokeMode="RESPONSE_STREAM", Colour="x"),
            "GUrl": url({"Ref": "G"}, AuthType="AWS_IAM", Qualifier="live"),
            "HUrl": url("H", Cors={"AllowOrigins": [{"Ref": "Site"}]}),
            "Second": url("arn:aws:lambda:us-east-1:123456789012:function:H"), "Far": url({"Fn::ImportValue": "far"}),
            "None": url({"Ref": "I"}) | {"Condition": "Never"}, "Odd": {"Type": "AWS::Lambda::Url", "Properties": 5}}})
        self.check("URLs that are resources", {function["name"]: function.get("url") for function in made["functions"]},
                   {
            "F": {"cors": {name[:1].lower() + name[1:]: value for name, value in cors.items()},
                  "invoke": "RESPONSE_STREAM"}, "shop-g": True,
            "H": {"cors": {"allowOrigins": ["Site"]}}, "I": None})
        for words in ("F: ignores Colour of its URL",
                      "shop-g: its URL takes requests without a signature here",
                      "H: HUrl has a placeholder for the resource Site",
                      "ignores Second, AWS::Lambda::Url: H has a URL already",
                      "ignores Far, AWS::Lambda::Url: there is no function far",
                      "ignores None: its condition Never is not met",
                      "ignores Odd, AWS::Lambda::Url: there is no function None"):
            self.check(f"URLs that are resources: {words}", words in said, shown=said)

    def test_cross_origin_settings_of_HTTP_APIs_are_taken(self):
        """What an HTTP API says of cross-origin requests: for all of SAM's, for one of its own, and in Serverless."""
        def template(shared=None, **apis):
            """A function with a route of each API, and one of SAM's own if there is none."""
            events: Dict[str, Members] = {
                key: {"Type": "HttpApi", "Properties": {"Path": f"/{key}", "Method": "GET",
                                                        **({"ApiId": {"Ref": key}} if apis else {})}}
                for key in apis or ("own",)}
            function = {"Type": "AWS::Serverless::Function", "Properties": {"Runtime": "provided", "Events": events}}
            return {"Globals": {"HttpApi": shared or {}}, "Resources": {"F": function, **{
                key: {"Type": "AWS::Serverless::HttpApi", "Properties": properties} for key,
                properties in apis.items()}}}

        any_site = {"allowOrigins": ["*"], "allowHeaders": ["*"], "allowMethods": ["*"]}
        own = {"AllowOrigins": ["http://a"], "AllowMethods": ["GET"], "MaxAge": 5, "AllowCredentials": False}
        made_own = {"allowOrigins": ["http://a"], "allowMethods": ["GET"], "maxAge": 5, "allowCredentials": False}
        for title, given, wanted, words in (
                ("none", template(), None, ""),
                ("of Globals, any site", template({"CorsConfiguration": True}), any_site, ""),
                ("of Globals, one site", template({"CorsConfiguration": "http://a"}), {"allowOrigins": ["http://a"]},
                 ""),
                ("of Globals, in full", template({"CorsConfiguration": own, "Auth": {"UsagePlan": {}}}), made_own,
                 "ignores UsagePlan of Auth of the HTTP API ServerlessHttpApi"),
                ("of an API", template({"CorsConfiguration": True}, Shop={"CorsConfiguration": own, "Colour": "x"}),
                 made_own, "ignores Colour of the HTTP API Shop"),
                ("of an API by Globals", template({"CorsConfiguration": True}, Shop={}), any_site, ""),
                ("of an API, none", template({"CorsConfiguration": True}, Shop={"CorsConfiguration": False}), None, ""),
                ("of two APIs", template(None, Shop={"CorsConfiguration": own}, Back={"CorsConfiguration": True}),
                 made_own,
                 "all routes have one port here, with the Cors of the HTTP API Shop, and not those of Back"),
                ("with what is no Cors", template({"CorsConfiguration": {**own, "AllowOrigins": "x", "Colour": 1}}),
                 {name: value for name, value in made_own.items() if name != "allowOrigins"},
                 "ignores allowOrigins of the Cors of the HTTP API ServerlessHttpApi: x")):
            made, said = up_and_said(given)
            self.check(f"Cors of routes: {title}", (made.get("api", {}).get("cors"), words in said), (wanted, True),
                       shown=said)

    def test_an_HTTP_API_without_routes_is_none(self):
        unused = {"Resources": {"Shop": {"Type": "AWS::Serverless::HttpApi", "Properties": {"CorsConfiguration": True}},
                                "F": {"Type": "AWS::Lambda::Function", "Properties": {"Runtime": "provided"}}}}
        made, said = up_and_said(unused)
        self.check("an HTTP API without routes",
                   ("api" in made, "ignores Shop: no route belongs to it" in said), (False, True))

    def test_cross_origin_settings_of_Serverless_are_taken(self):
        any_site = {"allowOrigins": ["*"], "allowHeaders": ["*"], "allowMethods": ["*"]}
        for cors, made_cors in ((True, any_site), ({"allowedOrigins": ["http://a"], "maxAge": 5},
                                                   {"allowOrigins": ["http://a"], "maxAge": 5})):
            made, said = up_and_said({"service": "s",
                                      "provider": {"runtime": "provided", "httpApi": {"cors": cors, "metrics": True}},
                                      "functions": {"f": {"handler": "x", "events": [{"httpApi": "GET /a"}]}}})
            self.check(f"Serverless: Cors of routes {cors}",
                       (made["api"], "ignores metrics of the HTTP API provider.httpApi" in said),
                       ({"cors": made_cors}, True))

    def test_REST_APIs_of_SAM_are_taken(self):
        """AWS::Serverless::Api and the events Api: payload format 1.0, and the stage Prod of an API that is not
        named."""
        made, said = up_and_said({"Resources": {"F": function(A=event("Api", "/orders"), B=event("Api", "/all",
                                                                                                 "any"))}})
        self.check("SAM: an API that is not named", (made["routes"], made["api"], "ignores" in said),
                   ({"GET /orders": "F", "ANY /all": "F"}, {"payload": "1.0", "stage": "Prod"}, False))
        cors = {"AllowOrigin": "'https://shop.example'", "AllowHeaders": "'x-one,x-two'", "AllowMethods": "'GET, POST'",
                "MaxAge": "'600'", "AllowCredentials": True}
        properties = {"StageName": {"Ref": "Stage"}, "Variables": {"table": {"Fn::Sub": "orders-${Stage}"}},
                      "BinaryMediaTypes": ["image~1png", "*~1*"], "Cors": cors, "TracingEnabled": True}
        template = {"Parameters": {"Stage": {"Type": "String", "Default": "v1"}}, "Resources": {
            "Shop": {"Type": "AWS::Serverless::Api", "Properties": properties},
            "F": function(A=event("Api", "/orders/{id}", RestApiId={"Ref": "Shop"}))}}
        made, said = up_and_said(template)
        self.check("SAM: one of its own", (made["routes"], made["api"]), ({"GET /orders/{id}": "F"}, {
            "payload": "1.0", "stage": "v1", "stageVariables": {"table": "orders-v1"},
            "binaryMediaTypes": ["image/png", "*/*"],
            "cors": {"allowOrigins": ["https://shop.example"], "allowHeaders": ["x-one", "x-two"],
                     "allowMethods": ["GET", "POST"], "maxAge": 600, "allowCredentials": True}}))
        self.check("SAM: what is left out of it", "ignores TracingEnabled of the REST API Shop" in said, shown=said)
        made, _ = up_and_said({"Globals": {"Api": {"Cors": "'*'", "BinaryMediaTypes": ["image~1gif"]}},
                               "Resources": {"F": function(A=event("Api", "/"))}})
        self.check("SAM: Globals", made["api"], {"payload": "1.0", "stage": "Prod", "binaryMediaTypes": ["image/gif"],
                                                 "cors": {"allowOrigins": ["*"], "allowMethods": ["*"]}})
        made, _ = up_and_said({"Resources": {"F": function(
            A=event("HttpApi", "/a", PayloadFormatVersion="1.0"), B=event("HttpApi", "/b"))}})
        self.check("SAM: an HTTP API's event with format 1.0", made["routes"],
                   {"GET /a": {"function": "F", "payload": "1.0", "type": "HTTP"}, "GET /b": "F"})

    def test_REST_APIs_of_Serverless_are_taken(self):
        whole = {"service": "s", "provider": {
            "runtime": "provided", "stage": "test",
            "apiGateway": {"binaryMediaTypes": ["*/*"], "minimumCompressionSize": 1}},
            "functions": {"f": {"handler": "x", "events": [
                {"http": "GET /a/{b}"}, {"http": {"path": "c", "method": "post", "cors": True}},
                {"http": "ANY /{proxy+}"}]}}}
        made, said = up_and_said(whole)
        headers = ["Content-Type", "X-Amz-Date", "Authorization", "X-Api-Key", "X-Amz-Security-Token",
                   "X-Amz-User-Agent",
                   "X-Amzn-Trace-Id"]
        self.check("Serverless: http", (made["routes"], made["api"]),
                   (dict.fromkeys(("GET /a/{b}", "POST /c", "ANY /{proxy+}"), "s-test-f"),
                    {"payload": "1.0", "stage": "test", "binaryMediaTypes": ["*/*"],
                     "cors": {"allowOrigins": ["*"], "allowHeaders": headers, "allowMethods": ["*"]}}))
        self.check("Serverless: what is left out",
                   "ignores minimumCompressionSize of the REST API provider.apiGateway" in said, shown=said)
        made, _ = up_and_said({"service": "s", "provider": {"runtime": "provided", "httpApi": {"payload": "1.0"}},
                               "functions": {"f": {"handler": "x", "events": [{"httpApi": "GET /a"}]}}})
        self.check("Serverless: httpApi with format 1.0", made["api"], {"payload": "1.0", "type": "HTTP"})
        made, _ = up_and_said({"service": "s", "provider": {"runtime": "provided"}, "functions": {"f": {
            "handler": "x", "events": [{"http": {"path": "c", "method": "post", "cors": {
                "origins": ["http://a", "http://b"], "headers": ["x"], "allowCredentials": True, "maxAge": 60}}}]}}})
        self.check("Serverless: a Cors in full", made["api"]["cors"], {
            "allowMethods": ["*"], "allowOrigins": ["http://a", "http://b"], "allowHeaders": ["x"],
            "allowCredentials": True, "maxAge": 60})

    def test_REST_APIs_of_CDK_are_taken(self):
        """A RestApi with a LambdaIntegration: what `cdk synth` writes."""
        root = {"Fn::GetAtt": ["Api", "RootResourceId"]}
        proxy = {"Type": "AWS_PROXY", "IntegrationHttpMethod": "POST"}
        mock = {"Type": "MOCK", "RequestTemplates": {"application/json": "{ statusCode: 200 }"},
                "IntegrationResponses": [
            {"StatusCode": "204", "ResponseParameters": {
                "method.response.header.Access-Control-Allow-Headers": "'Content-Type,X-Api-Key'",
                "method.response.header.Access-Control-Allow-Origin": "'https://shop.example'",
                "method.response.header.Vary": "'Origin'",
                "method.response.header.Access-Control-Allow-Methods": "'GET,POST'"}}]}
        template = {"Resources": {
            **FUNCTIONS, "Api": of_type("ApiGateway::RestApi", Name="shop", BinaryMediaTypes=["image/png"]),
            "Orders": of_type("ApiGateway::Resource", ParentId=root, PathPart="orders", RestApiId={"Ref": "Api"}),
            "One": of_type("ApiGateway::Resource", ParentId={"Ref": "Orders"}, PathPart="{id}",
                           RestApiId={"Ref": "Api"}),
            "Rest": of_type("ApiGateway::Resource", ParentId=root, PathPart="{proxy+}", RestApiId={"Ref": "Api"}),
            "Loop": of_type("ApiGateway::Resource", ParentId={"Ref": "Loop"}, PathPart="x", RestApiId={"Ref": "Api"}),
            "A": method("Api", root, "ANY", Uri=uri_of("Ship2"), **proxy),
            "B": method("Api", {"Ref": "One"}, "GET", Uri=uri_of("Pay1"), **proxy),
            "C": method("Api", {"Ref": "Rest"}, "ANY", Uri=uri_of("Ship2"), **proxy),
            "D": method("Api", {"Ref": "One"}, "OPTIONS", **mock),
            "E": method("Api", {"Ref": "Loop"}, "GET", Uri=uri_of("Pay1"), **proxy),
            "G": method("Api", {"Ref": "Orders"}, "GET", Type="HTTP_PROXY", Uri="http://a"),
            "H": method("Api", {"Ref": "Orders"}, "PUT", Uri=uri_of("Gone"), **proxy),
            "Stage": of_type("ApiGateway::Stage", RestApiId={"Ref": "Api"}, StageName="prod", Variables={"a": "b"}),
            "Deployed": of_type("ApiGateway::Deployment", RestApiId={"Ref": "Api"})}}
        made, said = up_and_said(template)
        self.check("CDK: a REST API", (made["routes"], made["api"]), (
            {"GET /orders/{id}": "Pay1", "ANY /": "Ship2", "ANY /{proxy+}": "Ship2"},
            {"payload": "1.0", "stage": "prod", "stageVariables": {"a": "b"}, "binaryMediaTypes": ["image/png"],
             "cors": {"allowHeaders": ["Content-Type", "X-Api-Key"], "allowOrigins": ["https://shop.example"],
                      "allowMethods": ["GET", "POST"]}}))
        for words in ("ignores E, AWS::ApiGateway::Method: its API, path or method is not known here",
                      "ignores G, AWS::ApiGateway::Method: its integration is HTTP_PROXY, not a function",
                      "ignores H, AWS::ApiGateway::Method: its function is not here"):
            self.check(f"CDK: {words}", words in said, shown=said)

    def test_HTTP_APIs_of_CDK_are_taken(self):
        """An HttpApi with an HttpLambdaIntegration."""
        def route(key, integration="Integration", api="Api"):
            return of_type("ApiGatewayV2::Route", ApiId={"Ref": api}, RouteKey=key, AuthorizationType="NONE",
                           Target={"Fn::Join": ["", ["integrations/", {"Ref": integration}]]})

        def integration(payload, uri):
            return of_type("ApiGatewayV2::Integration", ApiId={"Ref": "Api"}, IntegrationType="AWS_PROXY",
                           IntegrationUri=uri, PayloadFormatVersion=payload)

        cors = {"AllowOrigins": ["https://shop.example"], "AllowMethods": ["GET"]}
        template = {"Resources": {
            **FUNCTIONS, "Api": of_type("ApiGatewayV2::Api", Name="shop", ProtocolType="HTTP", CorsConfiguration=cors),
            "Stage": of_type("ApiGatewayV2::Stage", ApiId={"Ref": "Api"}, StageName="$default", AutoDeploy=True),
            "Integration": integration("2.0", {"Fn::GetAtt": ["Pay1", "Arn"]}),
            "Old": integration("1.0", uri_of("Ship2")), "Far": integration("2.0", "https://far.example"),
            "A": route("GET /orders/{id}"), "B": route("$default", "Old"), "C": route("ANY /far", "Far"),
            "Chat": of_type("ApiGatewayV2::Api", Name="chat", ProtocolType="WEBSOCKET"),
            "D": route("$connect", api="Chat"), "E": route("nothing")}}
        made, said = up_and_said(template)
        self.check("CDK: an HTTP API", (made["routes"], made["api"]), (
            {"GET /orders/{id}": "Pay1", "$default": {"function": "Ship2", "payload": "1.0", "type": "HTTP"}},
            {"cors": {"allowOrigins": ["https://shop.example"], "allowMethods": ["GET"]}}))
        for words in ("ignores C, AWS::ApiGatewayV2::Route: its function is not here",
                      "ignores D, AWS::ApiGatewayV2::Route: it is of a WebSocket API",
                      "Pay1: ignores its route E"):
            self.check(f"CDK: {words}", words in said, shown=said)
        quick = of_type("ApiGatewayV2::Api", Name="q", ProtocolType="HTTP", Target={"Fn::GetAtt": ["Pay1", "Arn"]})
        made, _ = up_and_said({"Resources": {**FUNCTIONS, "Api": quick}})
        self.check("CloudFormation: an HTTP API of one function", made["routes"], {"$default": "Pay1"})

    def test_a_REST_API_of_SAM_is_answered_as_it_would_be_there(self):
        """A REST API of SAM is answered as it would be there."""
        resource = function(A=event("Api", "/orders/{id}"))
        resource["Properties"].update(Runtime="python3.12", Handler="app.lambda_handler")
        made, _ = up_and_said({"Resources": {"F": resource}})
        # (its own runtime, also where another client is installed)
        functions = [{"name": "F", "handler": "app.lambda_handler", "runtime": "python"}]
        up = Up(*READY, functions=functions, app=APP, whole={name: made[name] for name in ("routes", "api")})
        self.check("lambda_local up is ready", up.until("[up] ready", READY_SECONDS))
        address = next(found[1] for line in up.lines for found in [re.search(r"routes: (\S+)$", line)] if found)
        with Caller(address) as caller:
            caller.connection.request("GET", "/orders/7")
            answer = caller.connection.getresponse()
            self.check("a REST API of SAM is answered", (answer.status, json.loads(answer.read()),
                                                         answer.headers.get_all("set-cookie")),
                       (200, {"message": "GET /Prod/orders/7 7 127.0.0.1"}, ["a=1", "b=2"]))
        self.check("it ends in order, and leaves nothing", up.end(), (0, []))
