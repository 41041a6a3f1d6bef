"""Makes an UP.json of a SAM, CloudFormation, CDK or Serverless template."""


def main() -> int:
    from .command import main as run  # (lambda_local up, which takes templates too, needs its parts alone)
    return run()
