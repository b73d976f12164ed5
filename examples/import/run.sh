#!/bin/bash
# From a vendor's SVD to the registers of a virtual machine: imports stm32/stm32f205.svd, runs sequences over the devices
# of QEMU's netduino2, and compares what differs with stm32/differences.txt. Its status is 0 where nothing else differs.
#
#     bash examples/import/run.sh [FOLDER]       descriptions, reports and logs go to FOLDER, or to a temporary one
#
# It needs qemu-system-arm and Python 3.9. PYTHON is the interpreter, REGRUN_LINK the program.
set -euo pipefail
here=$(cd "$(dirname "$0")" && pwd)
python=${PYTHON:-python3}
export PYTHONPATH=${PYTHONPATH:-$here/../../python}

if [ $# -gt 0 ]; then
  folder=$1
  mkdir -p "$folder"
else
  folder=$(mktemp -d)
  trap 'rm -rf "$folder"' EXIT
fi

# run NAME SCRIPT WORD..: imports as NAME with further words, runs a script, and compares.
run() {
  local name=$1 script=$2
  shift 2
  (cd "$here/stm32" && "$python" -m regrun import stm32f205.svd "$@" --report "$folder/$name.report" \
    -o "$folder/$name.toml" 2>&1) | tail -1
  "$python" "$here/stm32/over_qemu.py" "$folder/$name.toml" "$here/stm32/$script" "$folder/$name.log" \
    "$here/stm32/differences.txt" "$name"
}

command -v qemu-system-arm > /dev/null || { echo "qemu-system-arm isn't installed" >&2; exit 77; }
echo "As the file is:"
run stm32f205 plan.script
echo "With the corrections of stm32/corrections:"
run corrected corrected.script @corrections
