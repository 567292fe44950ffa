#!/usr/bin/env bash
# The answers to each journal named.
exec bash "$(dirname "$0")/run.sh" journal "$@"
