"""The options by which users give values for a template, and what they say."""
import argparse

from .given import Given, given_by


def add_options(parser: argparse.ArgumentParser) -> None:
    """The options by which users give values for a template."""
    group = parser.add_argument_group("for templates")
    group.add_argument("--parameter", "--parameter-overrides", metavar="NAME=VALUE", action="append", default=[],
                       help="a parameter of the template; of a serverless.yml, ${param:NAME} and ${opt:NAME}")
    group.add_argument("--parameters", metavar="FILE", action="append", default=[],
                       help="parameters in JSON, or the samconfig.toml of sam deploy")
    group.add_argument("--stage", metavar="S", help="the stage of a serverless.yml, or of an app of CDK")
    group.add_argument("--env-file", metavar="FILE", action="append", default=[],
                       help="lines NAME=VALUE: variables of all functions")
    group.add_argument("--env-vars", metavar="FILE", help="variables by function, in JSON as sam local has them")
    group.add_argument("--values", metavar="FILE",
                       help="members of UP.json that are merged over the template (lambda_local.json beside it)")


def given_of(options: argparse.Namespace) -> Given:
    return given_by(options.parameter, options.parameters, options.stage, options.env_file, options.env_vars)
