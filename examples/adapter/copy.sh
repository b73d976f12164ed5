#!/usr/bin/env bash
# Copies the example of an own bus and an own device into a repository of one's own:
#
#     bash examples/adapter/copy.sh FOLDER NAME
#
# FOLDER is the repository's top; it is made where it isn't there. NAME is the new crate's name: a lowercase letter, then
# lowercase letters, digits and _. The library crates below the example come along, but those that FOLDER has already;
# FOLDER/crates.txt gets a line for each crate that is copied. The status is 64 for other words, and 73 where FOLDER can't
# be written or has a crate NAME.
set -eu
top=$(cd "$(dirname "$(realpath "$0")")/../.." && pwd)
from=example_wishbone

fail() {
    printf 'examples/adapter/copy.sh: %s\n' "$2" >&2
    exit "$1"
}

[ $# = 2 ] || fail 64 'FOLDER and NAME are asked for'
to=$1 name=$2
[[ $name =~ ^[a-z][a-z0-9_]*$ ]] || fail 64 "$name can't be the name of a crate"
mkdir -p "$to/crates" && [ -w "$to/crates" ] || fail 73 "$to can't be written"
[ ! -e "$to/crates/$name" ] || fail 73 "$to has a crate $name already"
touch "$to/crates.txt"

# line CRATE: its line of crates.txt here, or nothing for a crate of the kit.
line() { grep "^$1:" "$top/crates.txt" || true; }

# needed: the library crates that the example stands on, those below first.
needed() {
    local todo=("$from") all=" " crate uses use
    while [ "${#todo[@]}" -gt 0 ]; do
        crate=${todo[0]} todo=("${todo[@]:1}")
        uses=$(line "$crate" | cut -d : -f 2)
        for use in $uses; do
            case $all in *" $use "*) continue ;; esac
            [ -n "$(line "$use")" ] || continue
            all+="$use " todo+=("$use")
        done
    done
    sed -n 's/^\([a-z0-9_]*\):.*/\1/p' "$top/crates.txt" | while read -r crate; do
        case $all in *" $crate "*) echo "$crate" ;; esac
    done
}

for crate in $(needed); do
    [ ! -e "$to/crates/$crate" ] || continue
    mkdir "$to/crates/$crate"
    for part in src specs proofs; do
        [ ! -d "$top/crates/$crate/$part" ] || cp -R "$top/crates/$crate/$part" "$to/crates/$crate/"
    done
    grep -q "^$crate:" "$to/crates.txt" || line "$crate" >> "$to/crates.txt"
done

mkdir "$to/crates/$name"
for part in src specs proofs must-fail stdin stdout status; do
    [ ! -e "$top/crates/$from/$part" ] || cp -R "$top/crates/$from/$part" "$to/crates/$name/"
done
find "$to/crates/$name" -type f -exec sed -i "s/Rattle\.$from\./Rattle.$name./g" {} +
line "$from" | sed "s/^$from:/$name:/" >> "$to/crates.txt"
[ -e "$to/HANDLES" ] || cp "$top/HANDLES" "$to/"
echo "crates/$name and what it stands on are in $to; go on with"
echo "    cd $to/crates/$name && rt try < stdin"
