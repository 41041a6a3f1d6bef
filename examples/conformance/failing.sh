# A file whose Init fails: _HANDLER=failing.handler.
echo "the Init fails as it is asked to" >&2
return 1
