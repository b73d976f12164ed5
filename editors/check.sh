#!/usr/bin/env bash
# check.sh: opens each example in Vim in batch mode and asks how each line of its description is highlighted, and of its script
# the first word of each line, each map and each comment; and that the grammar for other editors is JSON whose patterns Python
# takes, the first of which begins at the first line of a description. The last line is 'N passed, M failed, K skipped'.
set -u
here=$(dirname "$(realpath "$0")")
passed=0 failed=0 skipped=0

if python3 - "$here/regrun.tmLanguage.json" <<'P'
import json, re, sys
def patterns(node):
    if isinstance(node, dict):
        for key, below in node.items():
            if key in ("match", "begin", "end"):
                re.compile(below)
            patterns(below)
    elif isinstance(node, list):
        for below in node:
            patterns(below)
grammar = json.load(open(sys.argv[1]))
patterns(grammar)
begin = re.compile(grammar["patterns"][0]["begin"])
sys.exit(0 if begin.match("[[reg]]") and not begin.match("---") else 1)
P
then passed=$((passed + 1)); else failed=$((failed + 1)); fi

for example in "$here"/../examples/*.regrun; do
    if ! command -v vim > /dev/null; then
        skipped=$((skipped + 1))
        continue
    fi
    wrong=$(vim -Nu NONE -es "$example" \
        -c "set runtimepath^=$here/vim | filetype on | syntax on" \
        -c "source $here/vim/ftdetect/regrun.vim | setfiletype regrun" \
        -S "$here/ask.vim" 2>&1 < /dev/null)
    if [ -z "$wrong" ]; then
        passed=$((passed + 1))
    else
        failed=$((failed + 1))
        echo "$(basename "$example"): $wrong" | head -4
    fi
done
echo "$passed passed, $failed failed, $skipped skipped"
[ "$failed" = 0 ]
