// A module whose Init fails: _HANDLER=failing.handler.
class InitFailed extends Error {}

throw new InitFailed("the Init fails as it is asked to");
