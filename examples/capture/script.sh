#!/usr/bin/env bash
# Makes a script from the samples of this folder, and prints it. It needs jq.
#
# usage: examples/capture/script.sh
set -eu
if [ $# -gt 0 ]; then
  echo "usage: examples/capture/script.sh" >&2
  exit 2
fi
cd "$(dirname "$(readlink -f "${BASH_SOURCE[0]}")")"
{
  jq -c -f posts.jq posts.jsonl
  jq -c -f webhooks.jq webhooks.jsonl
} | jq -c --slurp --arg until 2024-05-01T10:30:00Z -f in-order.jq
