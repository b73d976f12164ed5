#!/usr/bin/env bash
# shells.sh: holds each shell script of this repository to shellcheck. The last line is 'N passed, M failed, K skipped'.
set -u
cd "$(dirname "$(realpath "$0")")/.." || exit 73
passed=0 failed=0
if ! command -v shellcheck > /dev/null; then
    echo '0 passed, 0 failed, 1 skipped (the Debian package shellcheck is not installed)'
    exit 0
fi
for script in regrun .ci/run ./*/*.sh examples/*/*.sh; do
    if shellcheck --severity=warning "$script"; then passed=$((passed + 1)); else failed=$((failed + 1)); fi
done
echo "$passed passed, $failed failed"
[ "$failed" = 0 ]
