#!/usr/bin/env bash
# Runs pools under load for so many seconds, half a minute unless said: tests/load/run.sh [SECONDS]
exec "$(dirname "${BASH_SOURCE[0]}")/../threads/run.sh" --load "${1:-30}" 0 stress_tests
