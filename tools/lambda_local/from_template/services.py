"""The names, ARNs and addresses of resources that another service serves: a table, a queue, a topic, a bucket, a state
machine (the return values of each type, CloudFormation Template Reference)."""
import re
from typing import TYPE_CHECKING, Iterator, NamedTuple, Optional

from ..configuration import Members
from ..other_server import endpoint_of as endpoint_of  # (which others import from here)

if TYPE_CHECKING:
    from .values import Scope

PAGE = "docs/services.md"


class Kind(NamedTuple):
    named_by: str  # the property that has its name
    arn: str
    ref: str = "{name}"
    of_name: str = ""  # the attribute that has its name


TABLE = Kind("TableName", "arn:aws:dynamodb:{region}:{account}:table/{name}")
MACHINE = Kind("StateMachineName", "arn:aws:states:{region}:{account}:stateMachine:{name}",
               "arn:aws:states:{region}:{account}:stateMachine:{name}", "Name")
KINDS = {
    "AWS::DynamoDB::Table": TABLE, "AWS::DynamoDB::GlobalTable": TABLE, "AWS::Serverless::SimpleTable": TABLE,
    "AWS::S3::Bucket": Kind("BucketName", "arn:aws:s3:::{name}"),
    "AWS::SQS::Queue": Kind("QueueName", "arn:aws:sqs:{region}:{account}:{name}", "{sqs}/{account}/{name}",
                            "QueueName"),
    "AWS::SNS::Topic": Kind("TopicName", "arn:aws:sns:{region}:{account}:{name}",
                            "arn:aws:sns:{region}:{account}:{name}", "TopicName"),
    "AWS::Events::EventBus": Kind("Name", "arn:aws:events:{region}:{account}:event-bus/{name}", "{name}", "Name"),
    "AWS::Kinesis::Stream": Kind("Name", "arn:aws:kinesis:{region}:{account}:stream/{name}"),
    "AWS::StepFunctions::StateMachine": MACHINE,
    "AWS::Serverless::StateMachine": MACHINE._replace(named_by="Name"),
}
NO_LABEL = "/stream/1970-01-01T00:00:00.000"  # the time of a table's stream, which its server alone knows
ARNS = {"AWS::SNS::Topic": "TopicArn"}  # by which attribute a type has its ARN, if that is not Arn


def name_of(key: str, resource: Members, scope: "Scope") -> Optional[str]:
    """What the resource is called here: by its own name, else by its logical id, which is a placeholder."""
    kind = KINDS.get(str(resource.get("Type")))
    if kind is None:
        return None
    properties = resource.get("Properties")
    given = properties.get(kind.named_by) if isinstance(properties, dict) else None
    name = scope.value(given) if given is not None else None
    return name if isinstance(name, str) else str(scope.placeholder(key, f"the resource {key}"))


def filled(form: str, name: str, scope: "Scope") -> str:
    region, account = str(scope.pseudo["AWS::Region"]), str(scope.pseudo["AWS::AccountId"])
    return form.format(name=name, region=region, account=account,
                       sqs=endpoint_of("sqs") or f"https://sqs.{region}.amazonaws.com")


def ref(key: str, resource: Members, scope: "Scope") -> Optional[object]:
    """What `Ref` gives of such a resource; none of another one. A queue's address that leads to AWS is a
    placeholder."""
    name = name_of(key, resource, scope)
    if name is None:
        return None
    kind = KINDS[str(resource["Type"])]
    if "{sqs}" in kind.ref and endpoint_of("sqs") is None:
        scope.placeholder(name, f"the address of the queue {key}")
    return filled(kind.ref, name, scope)


def attribute(key: str, wanted: str, resource: Members, scope: "Scope") -> Optional[object]:
    """What `Fn::GetAtt` gives of one; none of another resource or attribute."""
    kind = KINDS.get(str(resource.get("Type")))
    if kind is None:
        return None
    if wanted == ARNS.get(str(resource["Type"]), "Arn"):
        return filled(kind.arn, str(name_of(key, resource, scope)), scope)
    if wanted == "StreamArn" and kind is TABLE:
        scope.placeholder(name_of(key, resource, scope), f"the stream of the table {key}")
        return filled(kind.arn, str(name_of(key, resource, scope)), scope) + NO_LABEL
    if wanted == kind.of_name:
        return name_of(key, resource, scope)
    return ref(key, resource, scope) if wanted == "QueueUrl" else None


def ids_in(expression: object, level: int = 0) -> Iterator[str]:
    """The logical ids that an expression refers to."""
    if isinstance(expression, list) and level < 50:
        for one in expression:
            yield from ids_in(one, level + 1)
    elif isinstance(expression, dict) and level < 50:
        for name, argument in expression.items():
            if name in ("Ref", "Fn::GetAtt", "Fn::Sub"):
                text = argument[0] if isinstance(argument, list) and argument else argument
                found = re.findall(r"\$\{([\w:]+)", text) if name == "Fn::Sub" and isinstance(text, str) else [text]
                yield from (str(one).split(".")[0] for one in found if isinstance(one, str))
            if name not in ("Ref", "Fn::GetAtt"):
                yield from ids_in(argument, level + 1)
