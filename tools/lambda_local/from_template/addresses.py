"""The Function URL and the HTTP routes of a function, as UP.json has them: of SAM's FunctionUrlConfig and Events, and
of url and events of Serverless."""
from typing import Iterator, List, Optional, Union

from ..configuration import Members
from ..front.routes import WrongRoute
from . import balancers, schedules
from .authorizers import of_serverless
from .cors import Tell, cors_of, rest_cors_of
from .messages import VALUES, excerpt
from .objects import Object, members_by_key
from .routes import IMPLICIT, IMPLICIT_REST, OF_SERVERLESS, REST_OF_SERVERLESS, FunctionRoute, Of, key_of
from .values import NO_VALUE, Scope

READ = {"FunctionUrlConfig", "Events", "url", "events"}
READ_ELSEWHERE = {*schedules.OF_SAM, "SQS", "Kinesis", "DynamoDB", "SNS"}  # of SAM's types of events
READ_OF_SERVERLESS = {"schedule", "sqs", "stream", "sns"}
# Which sample event is like that of a type of SAM's events, or of Serverless', which is not taken
SAMPLES = {"S3": "s3", "EventBridgeRule": "eventbridge", "CloudWatchEvent": "eventbridge", "IoTRule": "iot",
           "CloudWatchLogs": "cloudwatch_logs", "AlexaSkill": "alexa_skill", "Cognito": "cognito_pre_sign_up",
           "MSK": "msk", "MQ": "activemq", "SelfManagedKafka": "self_managed_kafka", "DocumentDB": "documentdb",
           "s3": "s3", "eventBridge": "eventbridge", "cloudwatchEvent": "eventbridge", "iot": "iot",
           "cloudwatchLog": "cloudwatch_logs", "alexaSkill": "alexa_skill", "alexaSmartHome": "alexa_smart_home",
           "cognitoUserPool": "cognito_pre_sign_up", "msk": "msk", "activemq": "activemq", "rabbitmq": "rabbitmq",
           "kafka": "self_managed_kafka", "websocket": "websocket_message", "cloudFront": "cloudfront"}


def url_with(cors: Optional[Members], streams: bool = False) -> Union[bool, Members]:
    made: Members = {**({"cors": cors} if cors else {}), **({"invoke": "RESPONSE_STREAM"} if streams else {})}
    return made or True


def sample(kind: object) -> str:
    """How to invoke a function with what this type of event sends."""
    name = SAMPLES.get(str(kind))
    return f": lambda_local invoke --sample {name} sends one like it" if name else ""


class Addresses:
    """`tell` reports what is left out of the function, or differs here."""

    def __init__(self, properties: Members, scope: Scope, tell: Tell) -> None:
        self.properties, self.scope, self.tell = properties, scope, tell

    def value(self, name: str) -> object:
        if name not in self.properties:
            return None
        value, placeholders = self.scope.evaluate_or_reason(self.properties[name])
        if placeholders:
            what = f"ignores {name}: it needs" if value is None else f"{name} has a placeholder for"
            self.tell(f"{what} {' and '.join(placeholders)}" + (
                "" if value is None else f": set \"url\" in {VALUES}"))
        return None if value is NO_VALUE else value

    # --- its URL ---

    def url(self) -> Union[None, bool, Members]:
        """The member `url`; none if it has none."""
        given = self.value("FunctionUrlConfig")
        if isinstance(given, dict):
            return self.url_of(given)
        given = self.value("url")
        if isinstance(given, dict):
            return self.url_of_serverless(Object(given, "its URL", self.scope, self.tell))
        return given is True or None

    def url_of(self, members: Members) -> Union[bool, Members]:
        """By the members that FunctionUrlConfig and AWS::Lambda::Url have in common."""
        given = Object(members, "its URL", self.scope, self.tell)
        given.without_meaning(["Qualifier"])
        self.tell_signature(given.raw("AuthType") == "AWS_IAM")
        url = url_with(cors_of(given.raw("Cors"), "its URL", self.scope, self.tell),
                       given.raw("InvokeMode") == "RESPONSE_STREAM")
        given.close()
        return url

    def url_of_serverless(self, given: Object) -> Union[bool, Members]:
        self.tell_signature(given.raw("authorizer") == "aws_iam")
        url = url_with(cors_of(given.raw("cors"), "its URL", self.scope, self.tell),
                       given.raw("invokeMode") == "RESPONSE_STREAM")
        given.close()
        return url

    def tell_signature(self, is_signed: bool) -> None:
        if is_signed:
            self.tell("its URL takes requests without a signature here")

    # --- its routes ---

    def routes(self) -> List[FunctionRoute]:
        """Its routes, each with its API."""
        return [*self.of_sam(), *self.of_serverless()]

    def of_sam(self) -> Iterator[FunctionRoute]:
        for name, event in members_by_key(self.properties.get("Events"), self.scope).items():
            kind = event.get("Type")
            if kind in READ_ELSEWHERE:
                continue
            where = f"its event {name}"
            if kind not in ("HttpApi", "Api"):
                self.tell(f"ignores {where} ({excerpt(kind)}){sample(kind)}")
                continue
            given = Object(event.get("Properties"), where, self.scope, self.tell)
            if kind == "Api":
                of = Of(self.api(given.raw("RestApiId"), IMPLICIT_REST), True)
            else:
                payload = given.raw("PayloadFormatVersion")
                of = Of(self.api(given.raw("ApiId"), IMPLICIT), payload="1.0" if str(payload) == "1.0" else "2.0")
            auth = given.raw("Auth")
            yield from self.route(f"event {name}", given.raw("Method"), given.raw("Path"), of,
                                  auth=auth if isinstance(auth, dict) else {})
            given.close()

    def api(self, named: object, otherwise: str) -> str:
        """The logical id of the API that an event of SAM is of, which no other stack has."""
        named = named.get("Ref") if isinstance(named, dict) else named
        return self.scope.prefix + (named if isinstance(named, str) else otherwise)

    def of_serverless(self) -> Iterator[FunctionRoute]:
        chosen = self.scope.chosen(self.properties.get("events"))
        for event in chosen if isinstance(chosen, list) else ():
            (kind, given), = event.items() if isinstance(event, dict) and len(event) == 1 else [(excerpt(event), None)]
            if kind in READ_OF_SERVERLESS:
                continue
            if kind == "alb":
                yield from balancers.of_serverless(given, self.scope, self.tell)
                continue
            if kind not in ("httpApi", "http"):
                self.tell(f"ignores events: {excerpt(kind)}{sample(kind)}")
                continue
            yield from self.route_of_serverless(kind, given)

    def route_of_serverless(self, kind: str, given: object) -> List[FunctionRoute]:
        if isinstance(given, str) and "${" not in given:
            method, _, path = given.strip().partition(" ")
            given = {} if given.strip() == "*" else {"method": method, "path": path.strip()}
        elif isinstance(given, str):
            self.tell(f"ignores events: {kind}: write it as an object with method and path")
            return []
        event = Object(given, f"its event {kind}", self.scope, self.tell)
        of, cors = Of(OF_SERVERLESS, payload=self.scope.payload), None
        if kind == "http":
            of = Of(REST_OF_SERVERLESS, True)
            cors = rest_cors_of(event.raw("cors"), f"its event {kind}", self.scope, self.tell)
            integration = event.raw("integration")
            if str(integration or "proxy").lower().replace("_", "-") not in ("proxy", "lambda-proxy", "aws-proxy"):
                self.tell(f"its event {kind} is a proxy integration here, not {excerpt(integration)}")
        authorizer = of_serverless(kind, event.raw("authorizer"), self.scope.authorizers, self.scope,
                                   f"{event.raw('method')} {event.raw('path')}")
        made = self.route(f"events: {kind}", event.raw("method"), event.raw("path"), of, cors, authorizer=authorizer)
        event.close()
        return made

    def route(self, where: str, method: object, path: object, of: Of,
              cors: Optional[Members] = None, auth: Optional[Members] = None,
              authorizer: Optional[Members] = None) -> List[FunctionRoute]:
        """Returns one route, or reports it if it is unknown."""
        both, placeholders = self.scope.evaluate_or_reason([method, path])
        why = f"it needs {' and '.join(placeholders)}"
        if isinstance(both, list) and len(both) == 2 and not placeholders:
            try:
                return [FunctionRoute(key_of(both[0], both[1]), of, cors, auth, authorizer)]
            except WrongRoute as fault:
                why = str(fault)
        self.tell(f"ignores its {where}: {why}")
        return []
