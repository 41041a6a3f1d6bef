"""For tests/tools/test_fuzz.py: who a caller is: authorizers of UP.json, tokens, what functions that authorize answer,
and results behind a load balancer; and routes, authorizers and rules of templates. Each reader may refuse by its own
fault."""
import base64
import json
from typing import Callable, Dict, Tuple

from lambda_local.front import settings
from lambda_local.front.alb import OfBalancer
from lambda_local.front.authorize import context_in
from lambda_local.front.payload import Unmappable
from lambda_local.front.policies import WrongPolicy, verdict_of
from lambda_local.front.tokens import WrongToken, as_texts, claims_of, scopes_of
from lambda_local.json_reader import NotJson, read_json
from lambda_local.service import Fault
from lambda_local.up import members, only

ARN = "arn:aws:execute-api:us-east-1:123456789012:local/Prod/GET/orders/7"
REST = {"payload": "1.0", "stage": "Prod"}
UP = json.dumps({
    "functions": [{"name": name, "command": ["true"], "memory": 1, "enforceMemory": True} for name in ("f", "auth")],
    "routes": {"GET /a": "f", "GET /b": {"function": "f", "authorizer": None}},
    "api": {**REST, "authorizer": {"function": "auth", "type": "TOKEN", "identity": ["method.request.header.T"],
                                   "validation": "a+", "ttl": 3}},
    "apis": {"jwt": {"authorizer": {"jwt": {"issuer": "i", "audience": ["a"]}, "scopes": ["s"]},
                     "routes": {"GET /a": "f"}},
             "fixed": {"authorizer": {"lambda": {"principalId": "p", "n": 1}}, "routes": {"GET /a": {
                 "function": "f", "authorizer": {"claims": {"sub": "a"}, "scopes": []}}}},
             "simple": {"authorizer": {"function": "auth", "simple": True, "payload": "2.0",
                                       "identity": ["$request.querystring.q", "$context.routeKey"]},
                        "routes": {"GET /a": "f"}},
             "alb": {"payload": "alb", "multiValueHeaders": True, "routes": {"$default": "f"}}}}).encode()
TOKEN = b".".join(base64.urlsafe_b64encode(part).rstrip(b"=") for part in (
    b'{"alg":"RS256"}', b'{"sub":"a","exp":4000000000,"nbf":1,"iss":"i","aud":["a"],"scope":"r w"}')) + b".c2ln"
ANSWER = (b'{"principalId":"a","context":{"n":1,"t":"x","b":true},"isAuthorized":true,"policyDocument":{"Version":'
          b'"2012-10-17","Statement":[{"Action":["execute-api:Invoke"],"Effect":"Allow","Resource":"arn:*/GET/*"},'
          b'{"NotAction":"x","Effect":"Deny","NotResource":["arn:*"],"Condition":{}}]}}')
RESULT = (b'{"statusCode":200,"statusDescription":"200 OK","headers":{"a":"b"},"multiValueHeaders":{"c":["d"]},'
          b'"body":"x","isBase64Encoded":false}')


def resource(kind: str, **properties: object) -> Dict[str, object]:
    return {"Type": f"AWS::{kind}", "Properties": properties}


GET, URI = {"Fn::GetAtt": ["A", "Arn"]}, {"Fn::Sub": "arn:aws:x:path/functions/${A.Arn}/invocations"}
TEMPLATE = json.dumps({"Resources": {
    "A": resource("Lambda::Function", Runtime="provided", Handler="x"),
    "F": resource("Serverless::Function", Runtime="provided", Events={
        "E": {"Type": "Api", "Properties": {"Path": "/a", "Method": "get", "RestApiId": {"Ref": "R"}, "Auth": {
            "Authorizer": "T", "AuthorizationScopes": ["s"]}}},
        "H": {"Type": "HttpApi", "Properties": {"Path": "/h", "Method": "get", "ApiId": {"Ref": "V"}}}}),
    "R": resource("Serverless::Api", StageName="p", Auth={"DefaultAuthorizer": "P", "Authorizers": {
        "T": {"FunctionArn": GET, "FunctionPayloadType": "REQUEST", "Identity": {"Headers": ["h"], "Context": ["c"],
                                                                             "ReauthorizeEvery": 3}},
        "P": {"UserPoolArn": "arn", "Identity": {"Header": "X"}}}}),
    "V": resource("Serverless::HttpApi", Auth={"DefaultAuthorizer": "J", "Authorizers": {"J": {
        "IdentitySource": "$request.header.A", "JwtConfiguration": {"issuer": "i", "audience": ["a"]}}}}),
    "API": resource("ApiGatewayV2::Api", ProtocolType="HTTP"),
    "I": resource("ApiGatewayV2::Integration", IntegrationUri=GET, PayloadFormatVersion="2.0"),
    "Z": resource("ApiGatewayV2::Authorizer", AuthorizerType="REQUEST", AuthorizerUri=URI,
                  IdentitySource=["$request.header.A"], EnableSimpleResponses=True),
    "W": resource("ApiGatewayV2::Route", ApiId={"Ref": "API"}, RouteKey="GET /r", Target="integrations/I",
                  AuthorizationType="CUSTOM", AuthorizerId={"Ref": "Z"}, AuthorizationScopes=["s"]),
    "G": resource("ElasticLoadBalancingV2::TargetGroup", TargetType="lambda", Targets=[{"Id": GET}],
                  TargetGroupAttributes=[{"Key": "lambda.multi_value_headers.enabled", "Value": "true"}]),
    "L": resource("ElasticLoadBalancingV2::ListenerRule", Actions=[{"TargetGroupArn": {"Ref": "G"}}], Conditions=[
        {"Field": "path-pattern", "PathPatternConfig": {"Values": ["/x/*"]}},
        {"Field": "http-request-method", "HttpRequestMethodConfig": {"Values": ["GET"]}}])}}).encode()


def of_up(data: bytes) -> None:
    try:
        whole = members.looked_at(read_json(data), "up.json")
        settings.settings_of(whole)
        only.limited(whole, [whole["functions"][0]["name"]], "up.json")
    except (NotJson, Fault):
        pass


def of_token(data: bytes) -> None:
    try:
        claims = claims_of(data.decode("latin-1"), {"issuer": "i", "audience": ["a"]})
    except WrongToken:
        return
    assert all(isinstance(text, str) for text in as_texts(claims).values())
    json.dumps([as_texts(claims), scopes_of(claims)])


def of_answer(data: bytes) -> None:
    try:
        value = read_json(data)
    except NotJson:
        return
    for is_rest, is_simple in ((True, False), (False, False), (False, True)):
        try:
            if isinstance(value, dict):
                context_in(value, is_rest, is_simple)
                verdict_of(value.get("policyDocument"), ARN)
        except WrongPolicy:
            pass


def of_result(data: bytes) -> None:
    for is_multiple in (False, True):
        try:
            form = OfBalancer(settings.Integration("alb", is_multiple=is_multiple), "us-east-1")
            reply = form.reply(data, None, lambda text: None)  # type: ignore[arg-type]  # (it does not look at it)
            assert all("\n" not in value for _, value in reply.headers)
        except Unmappable:
            pass


Part = Tuple[Callable[[bytes], None], bytes, object]


def parts(of_templates: Callable[[bytes], None], inputs_of: Callable[[bytes], object]) -> Dict[str, Part]:
    return {name: (reader, original, inputs_of(original)) for name, reader, original in (
        ("authorizers", of_up, UP), ("tokens", of_token, TOKEN), ("answers", of_answer, ANSWER),
        ("behind_alb", of_result, RESULT), ("template_routes", of_templates, TEMPLATE))}
