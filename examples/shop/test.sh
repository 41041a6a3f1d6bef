#!/bin/sh
# Runs the shop's tests: moto's server has the table and the queue, lambda_local up the functions.
#   pip install 'moto[server]' boto3 pytest pyyaml
# PORT is moto's port, LAMBDA_LOCAL the command (lambda_local), PYTHON the Python that has moto, PYTEST
# the command of pytest; arguments are options of up.
set -eu
cd "$(dirname "$0")"
port=${PORT:-5000} python=${PYTHON:-python3}
export AWS_ENDPOINT_URL="http://127.0.0.1:$port"
"$python" -m moto.server -H 127.0.0.1 -p "$port" > /dev/null 2>&1 & moto=$!
trap 'kill $moto' EXIT
for _ in $(seq 150); do
  "$python" -c "import socket; socket.create_connection(('127.0.0.1', $port))" 2> /dev/null && break
  sleep 0.2
done
"$python" tests/setup.py
tests="${PYTEST:-$python -m pytest} -q -p no:cacheprovider tests && node --test tests/"
"${LAMBDA_LOCAL:-lambda_local}" up "$@" -- sh -c "$tests"
