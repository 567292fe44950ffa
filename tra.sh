#!/usr/bin/env bash
# The output of each sheet named.
exec bash "$(dirname "$0")/run.sh" tra "$@"
