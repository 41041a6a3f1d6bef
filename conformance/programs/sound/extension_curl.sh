#!/bin/bash
# An extension with curl, as AWS's example for bash has it: a connection for each request, and a file for its headers.
root="http://$AWS_LAMBDA_RUNTIME_API/2020-01-01/extension"
heads=$(mktemp)
trap 'rm -f "$heads"' EXIT

curl -sS -f -D "$heads" -o /dev/null -X POST "$root/register" -H "Lambda-Extension-Name: sound" \
  -d '{"events":["INVOKE","SHUTDOWN"]}' || exit 1
id=$(grep -Fi Lambda-Extension-Identifier "$heads" | tr -d '[:space:]' | cut -d: -f2)
fails() {
  curl -sS -o /dev/null -X POST "$root/$1" -H "Lambda-Extension-Identifier: $id" \
    -H "Lambda-Extension-Function-Error-Type: Extension.Failed" \
    -d '{"errorMessage":"it fails","errorType":"Extension.Failed"}'
  exit 1
}
if [ "$CONFORMANCE_FAILS" = init ]; then fails init/error; fi
while event=$(curl -sS -f "$root/event/next" -H "Lambda-Extension-Identifier: $id"); do
  case $event in *SHUTDOWN*) exit 0 ;; esac
  if [ "$CONFORMANCE_FAILS" = exit ]; then fails exit/error; fi
done
exit 1
