"""Environment variables: those that lead a client here and keep it from AWS, and those of a function."""
import json
import os
import re
from typing import Dict, Mapping, Protocol

from .configuration import Kind, Members

# What a client would take in place of the dummies, or read to go elsewhere.
LEFT_OUT = ("AWS_PROFILE", "AWS_DEFAULT_PROFILE", "AWS_SESSION_TOKEN", "AWS_SECURITY_TOKEN", "AWS_ROLE_ARN",
            "AWS_WEB_IDENTITY_TOKEN_FILE",
            "AWS_CONTAINER_CREDENTIALS_RELATIVE_URI", "AWS_CONTAINER_CREDENTIALS_FULL_URI",
            "AWS_CONTAINER_AUTHORIZATION_TOKEN", "AWS_CONTAINER_AUTHORIZATION_TOKEN_FILE")
LOOPBACK = ("127.0.0.1", "localhost")
DUMMIES = {"AWS_ACCESS_KEY_ID": "local", "AWS_SECRET_ACCESS_KEY": "local"}


class Serving(Protocol):
    """What callers are led to."""
    endpoint_url: str
    configuration: Members


def is_variables(value: object) -> bool:
    return isinstance(value, dict) and all(isinstance(text, (str, int, float)) for text in value.values())


OF_FUNCTION = Kind(is_variables, "an object of strings, numbers, true or false")


def text_of(value: object) -> str:
    """The text of a variable; true and false as JSON has them."""
    return value if isinstance(value, str) else json.dumps(value)


def leading_to(endpoint_url: str, region: str) -> Dict[str, str]:
    """Returns what leads a client to the service, also behind a proxy. (`false` overrules what a configuration file
    says.)"""
    return {"AWS_REGION": region, "AWS_DEFAULT_REGION": region, "AWS_ENDPOINT_URL_LAMBDA": endpoint_url,
            "AWS_IGNORE_CONFIGURED_ENDPOINT_URLS": "false", **past_proxies()}


def past_proxies(environ: Mapping[str, str] = os.environ) -> Dict[str, str]:
    """Clients take the first of no_proxy and NO_PROXY that they know: both say that this machine needs no proxy."""
    if not any(environ.get(name) or environ.get(name.upper()) for name in ("http_proxy", "all_proxy")):
        return {}
    exceptions = {}
    for name in ("no_proxy", "NO_PROXY"):
        others = [word for word in re.split(r"[\s,]+", environ.get(name) or environ.get(name.swapcase()) or "")
                  if word and word not in LOOPBACK]
        exceptions[name] = "*" if "*" in others else ",".join([*others, *LOOPBACK])
    return exceptions


def of_callers(service: Serving, keeps_credentials: bool) -> Dict[str, str]:
    """Returns the variables of a command that calls functions: this process's own, and those that lead here."""
    variables = dict(os.environ)
    if not keeps_credentials:
        variables = {**{name: value for name, value in variables.items() if name not in LEFT_OUT}, **DUMMIES}
    return {**variables, **leading_to(service.endpoint_url, service.configuration["region"])}


def of_function(name: str, memory: int, number: int = 1) -> Dict[str, str]:
    """Returns what a function reads about itself (Developer Guide, "Defined runtime environment variables")."""
    return {"AWS_LAMBDA_FUNCTION_NAME": name, "AWS_LAMBDA_FUNCTION_VERSION": "$LATEST",
            "AWS_LAMBDA_FUNCTION_MEMORY_SIZE": str(memory), "AWS_LAMBDA_INITIALIZATION_TYPE": "on-demand",
            "AWS_LAMBDA_LOG_GROUP_NAME": f"/aws/lambda/{name}",
            "AWS_LAMBDA_LOG_STREAM_NAME": f"local/[$LATEST]{number}"}
