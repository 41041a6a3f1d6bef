"""A module that does not compile: _HANDLER=broken.handler."""


def handler(event, context:
