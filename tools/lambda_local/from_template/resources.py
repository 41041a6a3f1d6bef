"""Function URLs and APIs that a template has as resources of their own: AWS::Lambda::Url, which CDK writes, and SAM's
APIs with what Globals says of all of them."""
from typing import Dict, List, Union

from ..configuration import Members
from .addresses import Addresses
from .cloudformation import merged
from .named import function_of, resources_of
from .routes import IMPLICIT, IMPLICIT_REST
from .messages import excerpt, tell
from .shared import Unknown
from .values import Scope, members_of

URL, HTTP_API, REST_API = "AWS::Lambda::Url", "AWS::Serverless::HttpApi", "AWS::Serverless::Api"


def add_urls(functions: List[Members], scope: Scope) -> None:
    """Gives functions the URLs that are resources."""
    for key, properties in resources_of(URL, scope):
        try:
            target = scope.evaluate(properties.get("TargetFunctionArn")).value
        except Unknown as reason:
            target = str(reason)
        made = function_of(target, functions, scope)
        if made is None:
            tell(f"ignores {key}, {URL}: there is no function {excerpt(target)}")
        elif "url" in made:
            tell(f"ignores {key}, {URL}: {made['name']} has a URL already")
        else:
            made["url"] = url_of(made["name"], key, properties, scope)


def url_of(name: str, key: str, properties: Members, scope: Scope) -> Union[bool, Members]:
    def of_function(line: str) -> None:
        tell(f"{name}: {line}")

    own = {member: value for member, value in properties.items() if member != "TargetFunctionArn"}
    given = Addresses({key: own}, scope, of_function)
    known = given.value(key)
    return given.url_of(known if isinstance(known, dict) else {})


def apis_of(template: Members, scope: Scope) -> Dict[str, Members]:
    """The properties of each API by its logical id, with what Globals says of all, in SAM's names."""
    common, prefix = members_of(template, "Globals"), scope.prefix
    http, rest = members_of(common, "HttpApi"), {"StageName": "Prod", **members_of(common, "Api")}
    apis: Dict[str, Members] = {prefix + IMPLICIT: http, prefix + IMPLICIT_REST: rest}
    for kind, shared in ((HTTP_API, http), (REST_API, rest)):
        for key, properties in resources_of(kind, scope):
            whole = merged(shared, properties)
            apis[prefix + key] = whole if isinstance(whole, dict) else {}
    return apis
