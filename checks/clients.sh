#!/usr/bin/env bash
# A server on the loopback address, and clients of DynamoDB against it: curl, and boto3 and the AWS SDKs for Ruby and for Go where they are
# installed.
# It ends by itself: the server serves so many connections at most and is stopped at the end, and every wait has a limit.
#
#   checks/clients.sh [PORT]      the first of 41 ports to try, default 47120
#   PROGRAM=path checks/clients.sh       the program to try, default ./alternator
set -u
cd "$(dirname "$0")/.."
. checks/serving.bash
first=${1-47120}
program=${PROGRAM-./alternator}
work=$(mktemp -d)
server=
trap '[ -z "$server" ] || kill "$server" 2>/dev/null; wait 2>/dev/null; rm -rf "$work"' EXIT
"$program" "$work/store" 0 init >/dev/null || { echo 'clients: the program does not run'; exit 1; }
serves "$first" "$program" "$work/store" serve 1 4000 65536 4 2>"$work/notes" || { echo 'clients: no port is free'; exit 1; }
passed=0
failed=0
# answers NAME WANTED ARGUMENTS..: what curl gets contains WANTED
answers() {
  local name=$1 wanted=$2 got
  shift 2
  got=$(curl -s -i -m 120 "http://127.0.0.1:$port/" "$@" 2>&1)
  case $got in
    *"$wanted"*) passed=$((passed + 1)) ;;
    *)
      failed=$((failed + 1))
      echo "$name: got '$got', without '$wanted'"
      ;;
  esac
}
# asks NAME WANTED OPERATION BODY
asks() { answers "$1" "$2" -H "X-Amz-Target: DynamoDB_20120810.$3" -d "$4"; }

asks 'a table is made' '"TableStatus":"ACTIVE"' CreateTable '{"TableName":"Tab","KeySchema":[{"AttributeName":"k","KeyType":"HASH"}],"AttributeDefinitions":[{"AttributeName":"k","AttributeType":"S"}]}'
asks 'an item is put' 'HTTP/1.1 200 OK' PutItem '{"TableName":"Tab","Item":{"k":{"S":"a"},"n":{"N":"-0012.500E1"}}}'
asks 'it is read' '{"Item":{"k":{"S":"a"},"n":{"N":"-125"}}}' GetItem '{"TableName":"Tab","Key":{"k":{"S":"a"}}}'
asks 'another operation' 'UnknownOperationException' Fly '{}'
streams='X-Amz-Target: DynamoDBStreams_20120810'
answers 'streams behind their own version' '{"Streams":[]}' -H "$streams.ListStreams" -d '{}'
asks 'and not behind that of tables' 'UnknownOperationException' ListStreams '{}'
answers 'nor tables behind that of streams' 'UnknownOperationException' -H "$streams.ListTables" -d '{}'
answers 'no target' 'UnknownOperationException' -d '{}'
answers 'another method' 'HTTP/1.1 405 Method Not Allowed' -X PUT -d '{}'
answers 'another path' '"only /"' --request-target /x -d '{}'
answers 'a coding' 'HTTP/1.1 501 Not Implemented' -H 'Transfer-Encoding: chunked' -d '{}'
answers 'a body that is too long' '413 Content Too Large' -H 'Content-Length: 16777217' -H 'Expect:' -d '{}'
head -c 300000 /dev/zero | tr '\0' x >"$work/long"
printf '{"TableName":"Tab","Item":{"k":{"S":"long"},"v":{"S":"%s"}}}' "$(cat "$work/long")" >"$work/body"
answers 'a body behind 100 Continue' 'HTTP/1.1 100 Continue' -H 'Expect: 100-continue' -H 'X-Amz-Target: DynamoDB_20120810.PutItem' -d @"$work/body"
asks 'and it is stored' '"k":{"S":"long"}' GetItem '{"TableName":"Tab","Key":{"k":{"S":"long"}}}'
# a request that is cut off stores nothing
printf 'POST / HTTP/1.1\r\nX-Amz-Target: DynamoDB_20120810.PutItem\r\nContent-Length: 60\r\n\r\n{"TableName":"Tab","Item":{"k"' >"/dev/tcp/127.0.0.1/$port"
asks 'a request that was cut off stores nothing' '{}' GetItem '{"TableName":"Tab","Key":{"k":{"S":"cut"}}}'

if python3 -c 'import boto3' 2>/dev/null; then
  if timeout 900 python3 checks/clients.py "$port"; then
    passed=$((passed + 1))
  else
    failed=$((failed + 1))
  fi
else
  echo 'clients: boto3 is not installed, and its part was skipped'
fi
# Version 1 of the SDK for Ruby, as Debian's package ruby-aws-sdk has it, which is spoken to by members of the older interface.
if ruby -e 'require "aws-sdk"; exit AWS::VERSION.start_with?("1.") ? 0 : 1' 2>/dev/null; then
  if timeout 900 ruby -W0 checks/clients.rb "$port"; then
    passed=$((passed + 1))
  else
    failed=$((failed + 1))
  fi
else
  echo 'clients: version 1 of the SDK for Ruby is not installed, and its part was skipped'
fi
# The SDK for Go as Debian's packages have it: without modules, and nothing is fetched.
export GO111MODULE=off GOPROXY=off GOFLAGS= GOPATH=/usr/share/gocode
if go list github.com/aws/aws-sdk-go/service/dynamodb >/dev/null 2>&1; then
  if timeout 900 go build -o "$work/clients" checks/clients.go && timeout 900 "$work/clients" "$port"; then
    passed=$((passed + 1))
  else
    failed=$((failed + 1))
    echo 'clients: the part of Go failed'
  fi
else
  echo 'clients: go or its SDK is not installed, and its part was skipped'
fi
kill -0 "$server" 2>/dev/null || { failed=$((failed + 1)); echo 'clients: the server ended'; }
echo "clients: $passed passed, $failed failed"
[ "$failed" = 0 ]
