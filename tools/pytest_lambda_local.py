"""The pytest plugin by its short name: PYTHONPATH=tools pytest -p pytest_lambda_local."""
from lambda_local.pytest_plugin import *  # noqa: F401,F403
