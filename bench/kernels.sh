#!/usr/bin/env bash
# Samples per second of the kernels' slice forms, beside a copy of as many samples. Outside the gate.
cd "$(dirname "$0")/../crates/kernel_bench" || exit 1
exec rt run -- figures
