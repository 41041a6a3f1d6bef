"""Checks which authorizers lambda_local from_template finds in SAM, CloudFormation and Serverless templates, as their
public references have them, and that what it makes of one runs. The program is LAMBDA_LOCAL_PROGRAM, else
./lambda_local."""
import importlib.util
import json
import os
import tempfile
import unittest.mock
import urllib.error
import urllib.request
from typing import Any, Dict

from lambda_local.from_template.own_values import merge
from lambda_local.front.authorizers import authorizer_of
from tests.library.cases import Case
from tests.library.events_kit import READY
from tests.library.template_kit import up_and_said
from tests.library.up_kit import Up


def function(**events):
    return {"Type": "AWS::Serverless::Function", "Properties": {"Runtime": "provided", "Events": {
        name: {"Type": kind, "Properties": {"Path": f"/{name}", "Method": "get", **more}}
        for name, (kind, more) in events.items()}}}


def of_type(kind, **properties):
    return {"Type": f"AWS::{kind}", "Properties": properties}


AUTH = of_type("Serverless::Function", Runtime="provided")
ARN = {"Fn::GetAtt": ["A", "Arn"]}
URI = {"Fn::Sub": "arn:aws:apigateway:${AWS::Region}:lambda:path/2015-03-31/functions/${A.Arn}/invocations"}


def translated_by_sam(template):
    """What CloudFormation gets of a template of SAM."""
    from samtranslator.parser.parser import Parser
    from samtranslator.translator.translator import Translator
    with unittest.mock.patch.dict(os.environ, {"AWS_DEFAULT_REGION": "us-east-1"}):
        return Translator({}, Parser()).translate(json.loads(json.dumps(template)), {})


def authorizers_of(made, where=None):
    """The API's authorizer, and those that routes have themselves."""
    api = made if where is None else made["apis"][where]
    return (api.get("api", api).get("authorizer"),
            {key.split("/")[1]: route.get("authorizer") for key, route in api["routes"].items()
             if isinstance(route, dict) and "authorizer" in route})


class TemplateAuthorizers(Case):
    def test_authorizers_of_SAMs_REST_API_are_taken(self):
        listed = {
            "Token": {"FunctionArn": ARN, "Identity": {"Header": "X-Token", "ValidationExpression": "a+",
                                                       "ReauthorizeEvery": 20}},
            "Request": {"FunctionArn": ARN, "FunctionPayloadType": "REQUEST", "Identity": {
                "Headers": ["H"], "QueryStrings": ["q"], "StageVariables": ["v"], "Context": ["c"]}},
            "Pool": {"UserPoolArn": "arn:aws:cognito-idp:r:1:userpool/p", "AuthorizationScopes": ["all"]},
            "Strange": {"FunctionArn": {"Ref": "Nowhere"}}}
        events: Dict[str, Dict[str, Any]] = {
            "default": {}, "open": {"Auth": {"Authorizer": "NONE"}},
            "request": {"Auth": {"Authorizer": "Request"}},
            "pool": {"Auth": {"Authorizer": "Pool", "AuthorizationScopes": ["one"]}},
            "iam": {"Auth": {"Authorizer": "AWS_IAM"}}, "none": {"Auth": {"Authorizer": "x"}},
            "strange": {"Auth": {"Authorizer": "Strange", "ApiKeyRequired": True}}}
        made, said = up_and_said({"Resources": {
            "A": AUTH, "F": function(**{name: ("Api", {"RestApiId": {"Ref": "R"}, **more})
                                        for name, more in events.items()}),
            "R": of_type("Serverless::Api", StageName="p", Auth={
                "DefaultAuthorizer": "Token", "Authorizers": listed, "UsagePlan": {}})}})
        self.check("SAM's REST API", authorizers_of(made), (None, {
            "default": {"function": "A", "type": "TOKEN", "identity": ["$request.header.X-Token"], "validation": "a+",
                        "ttl": 20},
            "request": {"function": "A", "identity": ["$request.header.H", "$request.querystring.q",
                                                      "$stageVariables.v", "$context.c"]},
            "pool": {"jwt": {}, "scopes": ["one"]}}))
        for words in ("ignores the authorizer \"AWS_IAM\" of GET /iam of F, which takes each caller\n",
                      "ignores the authorizer x of GET /none of F, which takes each caller: the REST API R has none",
                      "ignores the authorizer Strange of the REST API R, so its routes take each caller: there is "
                      "no function", "ignores ApiKeyRequired of Auth of GET /strange of F",
                      "ignores UsagePlan of Auth of the REST API R"):
            self.check(words, words.replace('\"', "") in said.replace('"', ""))

    def test_authorizers_of_SAMs_HTTP_API_are_taken(self):
        """With what Globals says, and one for all routes."""
        by = {"FunctionArn": ARN, "AuthorizerPayloadFormatVersion": 2.0, "EnableSimpleResponses": True,
              "Identity": {"Headers": ["Authorization"], "ReauthorizeEvery": 5}}
        jwt = {"IdentitySource": "$request.header.X", "JwtConfiguration": {"issuer": "https://me", "audience": ["a"]}}
        made, said = up_and_said({
            "Globals": {"HttpApi": {"Auth": {"DefaultAuthorizer": "L", "Authorizers": {"L": by, "J": jwt}}}},
            "Resources": {"A": AUTH, "F": function(one=("HttpApi", {}), two=("HttpApi", {}))}})
        wanted = {"function": "A", "identity": ["$request.header.Authorization"], "ttl": 5, "payload": "2.0",
                  "simple": True}
        self.check("SAM's HTTP API", (authorizers_of(made), "uthoriz" in said), ((wanted, {}), False))
        made, _ = up_and_said({"Resources": {
            "A": AUTH, "F": function(one=("HttpApi", {"ApiId": {"Ref": "H"}, "Auth": {
                "Authorizer": "J", "AuthorizationScopes": ["read"]}})),
            "H": of_type("Serverless::HttpApi", Auth={"Authorizers": {"J": jwt}})}})
        self.check("a token", authorizers_of(made), ({
            "jwt": {"issuer": "https://me", "audience": ["a"]}, "scopes": ["read"],
            "identity": ["$request.header.X"]}, {}))

    def test_authorizers_of_CloudFormation_are_taken(self):
        method = of_type("ApiGateway::Method", HttpMethod="GET", ResourceId={"Fn::GetAtt": ["R", "RootResourceId"]},
                         RestApiId={"Ref": "R"}, AuthorizationType="CUSTOM", AuthorizerId={"Ref": "RA"},
                         Integration={"Type": "AWS_PROXY", "Uri": URI})
        route = of_type("ApiGatewayV2::Route", ApiId={"Ref": "H"}, RouteKey="GET /jwt", Target="integrations/HI",
                        AuthorizationType="JWT", AuthorizerId={"Ref": "HA"}, AuthorizationScopes=["s"])
        made, said = up_and_said({"Resources": {
            "A": of_type("Lambda::Function", Runtime="provided", Handler="x"),
            "R": of_type("ApiGateway::RestApi", Name="r"), "M": method,
            "RA": of_type("ApiGateway::Authorizer", RestApiId={"Ref": "R"}, Type="REQUEST", Name="n", AuthorizerUri=URI,
                          IdentitySource="method.request.header.A, method.request.querystring.b",
                          AuthorizerResultTtlInSeconds=0),
            "H": of_type("ApiGatewayV2::Api", ProtocolType="HTTP"), "R1": route,
            "R2": {**route, "Properties": {**route["Properties"], "RouteKey": "GET /own", "AuthorizationType": "CUSTOM",
                                           "AuthorizerId": {"Ref": "HL"}}},
            "R3": {**route, "Properties": {**route["Properties"], "RouteKey": "GET /iam",
                                           "AuthorizationType": "AWS_IAM", "AuthorizerId": None}},
            "HI": of_type("ApiGatewayV2::Integration", IntegrationUri=ARN, PayloadFormatVersion="2.0"),
            "HA": of_type("ApiGatewayV2::Authorizer", ApiId={"Ref": "H"}, AuthorizerType="JWT", Name="j",
                          IdentitySource=["$request.header.Authorization"],
                          JwtConfiguration={"Issuer": "https://me", "Audience": ["a", "b"]}),
            "HL": of_type("ApiGatewayV2::Authorizer", ApiId={"Ref": "H"}, AuthorizerType="REQUEST", Name="l",
                          AuthorizerUri=URI, AuthorizerPayloadFormatVersion="1.0",
                          AuthorizerResultTtlInSeconds=7, IdentitySource=["$request.querystring.k"])}})
        self.check("of CloudFormation", authorizers_of(made), (None, {
            "": {"function": "A", "identity": ["method.request.header.A", "method.request.querystring.b"], "ttl": 0},
            "jwt": {"jwt": {"issuer": "https://me", "audience": ["a", "b"]}, "scopes": ["s"],
                    "identity": ["$request.header.Authorization"]},
            "own": {"function": "A", "identity": ["$request.querystring.k"], "ttl": 7, "payload": "1.0"}}))
        self.check("signatures", "ignores the authorizer of the route GET /iam, AWS_IAM: it takes each" in said)

    def test_authorizers_of_OpenAPI_are_those_of_SAM(self):
        """SAM's own translator writes a document of the same authorizers."""
        if not importlib.util.find_spec("samtranslator"):
            self.skipTest("aws-sam-translator is not here")
        listed = {"T": {"FunctionArn": ARN, "Identity": {"Header": "X", "ValidationExpression": "a+",
                                                         "ReauthorizeEvery": 5}},
                  "Q": {"FunctionArn": ARN, "FunctionPayloadType": "REQUEST", "Identity": {
                      "Headers": ["A"], "QueryStrings": ["b"]}},
                  "P": {"UserPoolArn": "arn", "Identity": {"Header": "Y"}}}
        of_http = {"J": {"IdentitySource": "$request.header.A", "AuthorizationScopes": ["s"],
                         "JwtConfiguration": {"issuer": "i", "audience": ["a"]}},
                   "L": {"FunctionArn": ARN, "AuthorizerPayloadFormatVersion": "2.0", "EnableSimpleResponses": True,
                         "Identity": {"Headers": ["A"]}}}

        def auth(kind, api, name):
            return kind, {"RestApiId" if kind == "Api" else "ApiId": {"Ref": api}, **(
                {"Auth": {"Authorizer": name}} if name else {})}
        template = {"Resources": {
            "A": of_type("Serverless::Function", Runtime="python3.12", Handler="a.b", InlineCode="x"),
            "F": function(plain=auth("Api", "R", None), none=auth("Api", "R", "NONE"), q=auth("Api", "R", "Q"),
                          p=auth("Api", "R", "P"), j=auth("HttpApi", "V", "J"), l=auth("HttpApi", "V", "L")),
            "R": of_type("Serverless::Api", StageName="p", Auth={"DefaultAuthorizer": "T", "Authorizers": listed}),
            "V": of_type("Serverless::HttpApi", Auth={"Authorizers": of_http})}}
        template["Resources"]["F"]["Properties"].update(Runtime="python3.12", Handler="a.b", InlineCode="x")
        made, _ = up_and_said(template)
        translated, said = up_and_said(translated_by_sam(template))
        seen, wanted = ({name: authorizer_of(given, name in ("plain", "q", "p"))
                         for name, given in authorizers_of(one)[1].items()} for one in (translated, made))
        self.check("there are five", sorted(wanted), ["j", "l", "p", "plain", "q"])
        self.check("those of the document", seen, wanted, shown=said)
        self.check("nothing is said of them", "uthoriz" in said or "security" in said, False, shown=said)

    def test_authorizers_of_Serverless_are_taken(self):
        made, said = up_and_said({
            "service": "s", "provider": {"runtime": "provided", "httpApi": {"authorizers": {
                "own": {"type": "request", "functionName": "auth", "payloadVersion": "2.0",
                        "enableSimpleResponses": True, "resultTtlInSeconds": 9,
                        "identitySource": ["$request.header.A"]},
                "token": {"issuerUrl": "https://me", "audience": "a",
                          "identitySource": "$request.header.Authorization"}}}},
            "functions": {"auth": {"handler": "x"}, "f": {"handler": "x", "events": [
                {"httpApi": {"method": "get", "path": "/own", "authorizer": "own"}},
                {"httpApi": {"method": "get", "path": "/token", "authorizer": {"name": "token", "scopes": ["r"]}}},
                {"httpApi": {"method": "get", "path": "/free"}},
                {"httpApi": {"method": "get", "path": "/iam", "authorizer": {"type": "aws_iam"}}},
                {"http": {"method": "get", "path": "named", "authorizer": "auth"}},
                {"http": {"method": "get", "path": "request", "authorizer": {
                    "name": "auth", "type": "request", "identitySource": "method.request.header.A",
                    "resultTtlInSeconds": 0}}},
                {"http": {"method": "get", "path": "pool", "authorizer": {
                    "name": "p", "arn": "arn:aws:cognito-idp:r:1:userpool/p", "scopes": ["s"]}}},
                {"http": {"method": "get", "path": "missing", "authorizer": "nobody"}}]}}})
        self.check("Serverless", authorizers_of(made), (None, {
            "own": {"function": "s-dev-auth", "identity": ["$request.header.A"], "ttl": 9, "payload": "2.0",
                    "simple": True},
            "token": {"jwt": {"issuer": "https://me", "audience": ["a"]}, "scopes": ["r"],
                      "identity": ["$request.header.Authorization"]},
            "named": {"function": "s-dev-auth", "type": "TOKEN"},
            "request": {"function": "s-dev-auth", "identity": ["method.request.header.A"], "ttl": 0},
            "pool": {"jwt": {}, "scopes": ["s"]}}))
        for words in ("ignores the authorizer aws_iam of get /iam, which takes each caller",
                      "so its routes take each caller: there is no function"):
            self.check(words, words in said)

    def test_ones_own_authorizer_takes_the_place_of_a_templates(self):
        """One's own takes the place of a template's, as a whole and for all routes."""
        made = {"functions": [{"name": "f"}], "api": {"payload": "1.0", "authorizer": {"jwt": {}}}, "routes": {
            "GET /a": {"function": "f", "authorizer": {"jwt": {}}}, "GET /b": {"function": "f", "type": "HTTP",
                                                                            "authorizer": {"jwt": {}}}, "GET /c": "f"}}
        with tempfile.TemporaryDirectory() as folder:
            path = os.path.join(folder, "lambda_local.json")
            with open(path, "w") as file:
                json.dump({"api": {"authorizer": {"claims": {"sub": "a"}}}}, file)
            whole = merge(made, path, {})
        self.check("one's own", (whole["api"], whole["routes"]), (
            {"payload": "1.0", "authorizer": {"claims": {"sub": "a"}}},
            {"GET /a": "f", "GET /b": {"function": "f", "type": "HTTP"}, "GET /c": "f"}))

    def test_an_authorizer_of_a_template_lets_callers_in(self):
        """What is made of a template of SAM, with a function that authorizes."""
        app = ('def auth(event, context):\n'
               '    return {"principalId": event["authorizationToken"], "policyDocument": {"Statement": [{\n'
               '        "Action": "execute-api:Invoke", "Effect": "Allow", "Resource": event["methodArn"]}]}}\n'
               'def run(event, context):\n'
               '    return {"statusCode": 200, "body": event["requestContext"]["authorizer"]["principalId"]}\n')
        template = {"Resources": {
            "A": of_type("Serverless::Function", Runtime="python3.11", Handler="app.auth"),
            "F": of_type("Serverless::Function", Runtime="python3.11", Handler="app.run", Events={
                "E": {"Type": "Api", "Properties": {"Path": "/me", "Method": "get", "RestApiId": {"Ref": "R"}}}}),
            "R": of_type("Serverless::Api", StageName="p", Auth={
                "DefaultAuthorizer": "T", "Authorizers": {"T": {"FunctionArn": ARN}}})}}
        made, _ = up_and_said(template)
        up = Up(*READY, functions=made["functions"], app=app,
                whole={name: value for name, value in made.items() if name != "functions"})
        self.check("it is ready", up.until("[up] ready", 120))
        url = up.told(r"GET (http://\S+/me) ->")
        asked = urllib.request.Request(url, headers={"Authorization": "ada"})
        with urllib.request.urlopen(asked, timeout=30) as answer:
            self.check("who it is", answer.read(), b"ada")
        try:
            urllib.request.urlopen(url, timeout=30).close()
            self.check("nobody", 200, 401)
        except urllib.error.HTTPError as fault:
            fault.close()
            self.check("nobody", fault.code, 401)
        self.check("its end", up.end(), (0, []))
