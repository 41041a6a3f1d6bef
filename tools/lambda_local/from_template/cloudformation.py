"""The functions of a SAM or CloudFormation template, also one that CDK or Serverless writes."""
import re
from typing import Dict, List, Optional, Set, Tuple

from ..configuration import Members
from .messages import LineGroups, excerpt, tell
from .services import KINDS
from .shared import Unknown
from .values import NO_VALUE, Scope, members_of, type_of

FUNCTION, SAM_FUNCTION = "AWS::Lambda::Function", "AWS::Serverless::Function"
ALIAS, VERSION = "AWS::Lambda::Alias", "AWS::Lambda::Version"
# Read once the functions are known
TAKEN_LATER = re.compile(r"AWS::Lambda::(Url|Alias|Version|EventSourceMapping|EventInvokeConfig)|"
                         r"AWS::Serverless::(Http)?Api|AWS::Serverless::Application|AWS::CloudFormation::Stack|"
                         r"AWS::ApiGateway::(RestApi|Resource|Method|Stage|Authorizer)|"
                         r"AWS::ApiGatewayV2::(Api|Route|Integration|Stage|Authorizer)|"
                         r"AWS::ElasticLoadBalancingV2::(LoadBalancer|Listener|ListenerRule|TargetGroup)|"
                         r"AWS::(Serverless|Lambda)::LayerVersion|"
                         r"AWS::Events::Rule|AWS::Scheduler::Schedule|AWS::SNS::Subscription")
# What a deployment alone has: it is not told
OF_DEPLOYMENT = re.compile(r"AWS::CDK::Metadata|AWS::IAM::.*|AWS::Lambda::Permission|AWS::Logs::LogGroup|"
                           r"AWS::ApiGateway::(Deployment|Account|Model|RequestValidator|GatewayResponse)|"
                           r"AWS::ApiGatewayV2::Deployment|AWS::CloudFormation::(WaitCondition|WaitConditionHandle)|"
                           r"AWS::SQS::QueuePolicy|AWS::SNS::TopicPolicy|AWS::S3::BucketPolicy|"
                           r"AWS::Lambda::LayerVersionPermission|AWS::Lambda::CodeSigningConfig|"
                           r"AWS::Serverless::Connector")
ASSET = "aws:asset:path"  # CDK says here, of what it has staged, in which folder it is


def is_intrinsic(value: object) -> bool:
    """Whether an object is a function of CloudFormation's."""
    return isinstance(value, dict) and len(value) == 1 and all(
        str(name) in ("Ref", "Condition") or str(name).startswith("Fn::") for name in value)


def merged(shared: object, own: object) -> object:
    """A value of Globals with a resource's own, as SAM merges them: objects member by member, lists one after the
    other, and anything else, functions of CloudFormation's included, is the resource's own (SAM, "Globals section")."""
    if isinstance(shared, dict) and isinstance(own, dict) and not is_intrinsic(shared) and not is_intrinsic(own):
        return {**shared, **{name: merged(shared[name], value) if name in shared else value
                             for name, value in own.items()}}
    return [*shared, *own] if isinstance(shared, list) and isinstance(own, list) else own


def with_globals(properties: Members, shared: Members) -> Members:
    """A SAM function's properties, and those of Globals. What a package alone has is not an image's."""
    if "PackageType" in properties or "ImageUri" in properties:
        shared = {name: value for name, value in shared.items() if name not in ("Runtime", "Handler", "CodeUri")}
    whole = merged(shared, properties)
    assert isinstance(whole, dict)
    return whole


def code_of(resource: Members, properties: Members, scope: Scope) -> Optional[str]:
    """The path of the code that CDK has staged, by the function's own metadata or by its key in the bucket."""
    asset = members_of(resource, "Metadata").get(ASSET)
    key = members_of(properties, "Code").get("S3Key")
    return asset if isinstance(asset, str) else scope.assets.get(key) if isinstance(key, str) else None


def properties_of(key: str, resource: Members, shared: Members, scope: Scope) -> Optional[Members]:
    """Returns a function's properties; None, with a report, if they cannot be read."""
    properties: object = scope.chosen(resource.get("Properties", {}))
    if not isinstance(properties, dict):
        tell(f"ignores {key}: its Properties must be an object, not {excerpt(properties)}")
        return None
    if resource["Type"] == SAM_FUNCTION:
        properties = with_globals(properties, shared)
    asset = code_of(resource, properties, scope)
    if asset is not None:
        properties = {**properties, "CodeUri": asset}
        properties.pop("Code", None)
    chosen = ((name, scope.chosen(value)) for name, value in properties.items())
    return {name: value for name, value in chosen if value is not NO_VALUE}


def is_wanted(key: str, resource: Members, scope: Scope) -> bool:
    """Whether its condition, if it has one, is met; reported if not."""
    condition = resource.get("Condition")
    if condition is None:
        return True
    try:
        is_met = scope.holds(condition)
    except Unknown as reason:
        tell(f"{key}: it is kept, since its condition {condition} cannot be worked out here: {reason}")
        return True
    if not is_met:
        tell(f"ignores {key}: its condition {condition} is not met")
    return is_met


def of_deployment(resources: Members) -> Set[str]:
    """The functions that serve custom resources, which a deployment alone invokes."""
    found: Set[str] = set()
    for resource in resources.values():
        token = members_of(resource, "Properties").get("ServiceToken")
        if isinstance(token, dict) and isinstance(named := token.get("Fn::GetAtt"), (list, str)) and named:
            found.add(str(named.split(".")[0] if isinstance(named, str) else named[0]))
    return found


def is_for_later(kind: str) -> bool:
    """Whether a type of resources is read, or told, elsewhere, or has no meaning here."""
    return bool(TAKEN_LATER.fullmatch(kind) or OF_DEPLOYMENT.fullmatch(kind) or kind in KINDS)


def functions_in(template: Members, scope: Scope) -> List[Tuple[str, Members]]:
    """Each function's logical id and properties. Their aliases and versions are noted in the scope."""
    left, functions = LineGroups("ignores {names}, {line}"), []
    shared, apart = members_of(members_of(template, "Globals"), "Function"), of_deployment(scope.resources)
    for key, resource in scope.resources.items():
        kind = type_of(resource) or excerpt(resource.get("Type") if isinstance(resource, dict) else resource)
        if is_for_later(kind):
            continue
        if kind not in (FUNCTION, SAM_FUNCTION):
            left.add(str(key), kind)
        elif key in apart:
            tell(f"ignores {key}, which serves custom resources of a deployment")
        elif is_wanted(key, resource, scope):
            properties = properties_of(key, resource, shared, scope)
            if properties is not None:
                functions.append((str(key), properties))
    left.say()
    note_aliases(functions, scope)
    return functions


def note_aliases(functions: List[Tuple[str, Members]], scope: Scope) -> None:
    """By which names a template may speak of aliases and versions of its functions."""
    for key, properties in functions:
        if "AutoPublishAlias" in properties:
            alias = scope.evaluate_or_reason(properties["AutoPublishAlias"]).value
            if isinstance(alias, str):
                names = (f"{key}.Alias", f"{key}Alias{re.sub('[^A-Za-z0-9]', '', alias)}")
                scope.aliases.update(dict.fromkeys(names, (key, alias)))
                scope.aliases[f"{key}.Version"] = (key, None)
    for key, resource in scope.resources.items():
        if type_of(resource) in (ALIAS, VERSION):
            function = referenced(members_of(resource, "Properties").get("FunctionName"))
            name = members_of(resource, "Properties").get("Name") if resource["Type"] == ALIAS else None
            alias = scope.evaluate_or_reason(name).value if name is not None else None
            if function is not None and (alias is None or isinstance(alias, str)):
                scope.aliases[str(key)] = (function, alias)


def referenced(value: object) -> Optional[str]:
    """The logical id that a reference to a resource or to an attribute of it names; None if it is neither."""
    if not isinstance(value, dict) or len(value) != 1:
        return None
    (function, argument), = value.items()
    if function == "Fn::GetAtt" and argument:
        argument = argument.split(".")[0] if isinstance(argument, str) else (
            argument[0] if isinstance(argument, list) else None)
    return argument if function in ("Ref", "Fn::GetAtt") and isinstance(argument, str) else None


def aliases_of(key: str, scope: Scope) -> Dict[str, None]:
    """The aliases of a function, once each."""
    return {alias: None for function, alias in scope.aliases.values() if function == key and alias}
