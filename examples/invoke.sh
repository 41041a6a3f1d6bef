#!/bin/sh
# Invokes a function by curl. PAYLOAD is JSON, or the name of a sample in examples/events, such as s3 or sqs.
#
# usage: examples/invoke.sh [NAME [PAYLOAD [ADDRESS]]]
# By default: greet '{"name":"Ada"}', and the address in AWS_ENDPOINT_URL_LAMBDA, else 127.0.0.1:9000.
name=${1:-greet}
payload=${2:-'{"name":"Ada"}'}
address=${3:-${AWS_ENDPOINT_URL_LAMBDA:-127.0.0.1:9000}}
sample=$(dirname "$0")/events/$payload.json
case $payload in
*[!a-z0-9._]*) ;;
*) test ! -f "$sample" || payload=@$sample ;;
esac
exec curl --silent --show-error --include --data-binary "$payload" \
  "http://${address#http://}/2015-03-31/functions/$name/invocations"
