#!/usr/bin/env bash
#SBATCH --job-name=regrun
#SBATCH --ntasks=1
#SBATCH --time=00:10:00
#SBATCH --output=/dev/null
# A Slurm job array with one task a session. In the folder OUT, which all nodes see, sessions.sh has made the sessions:
#
#     ./sessions.sh chip.toml OUT scripts/*.script > OUT/names
#     sbatch --wait --array=1-$(wc -l < OUT/names) farm.sbatch "$PWD" OUT
#     python3 junit.py OUT
set -eu
here=$1 out=$2
exec "$here/one.sh" "$out/$(sed -n "${SLURM_ARRAY_TASK_ID}p" "$out/names").session"
