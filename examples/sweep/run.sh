#!/bin/bash
# 196 runs over a grid of bandwidths and queue limits, by Snakemake, on this machine's processors. Writes sweep.png.
#
#   ./run.sh --profile NAME    on a cluster, by a profile of Snakemake; other options of Snakemake may stand here, too
. "$(dirname "$0")/../common.sh"
export PYTHON=$python
"$python" inputs.py
cd out
snakemake --snakefile ../Snakefile --cores "$(nproc)" --quiet all --forceall "$@"
