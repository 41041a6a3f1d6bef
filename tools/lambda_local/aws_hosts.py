"""The hosts of AWS, to which no tool and no test goes by mistake: those of each partition, as botocore's
partitions.json has them, and those that AWS gives what users deploy. (javascript/network.js has the same ones.)"""

HOSTS = ("amazonaws.com", "amazonaws.com.cn", "amazonaws.eu", "api.aws", "on.aws", "api.amazonwebservices.com.cn",
         "api.amazonwebservices.eu", "c2s.ic.gov", "api.aws.ic.gov", "sc2s.sgov.gov", "api.aws.scloud",
         "cloud.adc-e.uk", "api.cloud-aws.adc-e.uk", "csp.hci.ic.gov", "api.aws.hci.ic.gov")


def is_of_aws(host: str) -> bool:
    """Whether this is one of them, or below one, in letters of any case and with or without a dot at its end."""
    plain = host.lower().rstrip(".")
    return any(plain == name or plain.endswith(f".{name}") for name in HOSTS)
