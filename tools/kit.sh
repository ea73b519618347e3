#!/bin/sh
# Prints the folder of the Rattle kit, which has the prover, the compiler and the linker.
dirname "$(dirname "$(readlink -f "$(command -v rt)")")"
