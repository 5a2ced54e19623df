#!/usr/bin/env bash
# Measures the closing of eight journals of 60,000 records each, all following each other: once where all is kept, and
# once where the last record follows a missing one and nothing is. bench/close.sh PROGRAM: the built close_bench.
set -eu
exec "${1:?give the path of the built close_bench}" 60000
