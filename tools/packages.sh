#!/bin/sh
# packages.sh: installs, as root, the Debian packages that tests use, each that can be had. A check that needs one which isn't
# installed counts as skipped. The last line is '0 passed, 0 failed, K skipped', where K is how many can't be had.
set -u
packages='
    iverilog ghdl verilator
    gtkwave sigrok-cli
    shellcheck vim
    qemu-system-arm
    python3 python3-pytest python3-pytest-xdist python3-hypothesis python3-jsonschema
    python3-defusedxml python3-tomli python3-pip python3-setuptools python3-wheel'

[ "$(id -u)" = 0 ] || { echo 'packages.sh: only root can install packages' >&2; exit 77; }
export DEBIAN_FRONTEND=noninteractive
apt-get update > /dev/null 2>&1 || echo 'packages.sh: apt-get update failed'
skipped=0
for package in $packages; do
    dpkg-query -W -f '${Status}' "$package" 2> /dev/null | grep -q ' installed$' ||
        apt-get install -y --no-install-recommends "$package" > /dev/null 2>&1 || {
        skipped=$((skipped + 1))
        echo "the Debian package $package can't be had"
    }
done
echo "0 passed, 0 failed, $skipped skipped"
