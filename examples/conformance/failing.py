"""A module whose Init fails: _HANDLER=failing.handler."""


class InitFailed(Exception):
    pass


raise InitFailed("the Init fails as it is asked to")
