#!/bin/sh
# Gets the policy of Debian's package selinux-policy-default as CIL, into FOLDER, for sepol_policy.py: its modules as the package has them,
# each made into CIL by the converter of SELinux's tools. Nothing is installed. The policy is under the GPL, and no file of it belongs
# into this repository.
# usage: model/debian_policy.sh FOLDER         after `apt-get update`
set -eu
[ $# -eq 1 ] || { echo "usage: model/debian_policy.sh FOLDER" >&2; exit 2; }
mkdir -p "$1"
folder=$(cd "$1" && pwd)
work=$(mktemp -d)
trap 'rm -rf "$work"' EXIT
cd "$work"
apt-get download -qq policycoreutils semodule-utils selinux-policy-default libsepol2 libselinux1
for package in *.deb; do
    dpkg -x "$package" root
done
LD_LIBRARY_PATH=$(dirname "$(find root -name libsepol.so.2)")
export LD_LIBRARY_PATH
converter=$(find root -path '*selinux/hll/pp' -type f)
for module in root/usr/share/selinux/default/*.pp.bz2; do
    name=$(basename "$module" .pp.bz2)
    bzip2 -dc "$module" >module.pp
    "$converter" module.pp "$folder/$name.cil"
done

# A module of cilhost has at most 4,194,304 bytes: base.cil is cut in two between two of its lists.
python3 - "$folder/base.cil" <<'END'
import pathlib
import re
import sys

path = pathlib.Path(sys.argv[1])
text = path.read_bytes()
depth = cut = 0
for found in re.finditer(rb';[^\n]*|"[^"\n]*"|[()]', text[:4_000_000]):
    depth += {b"(": 1, b")": -1}.get(found[0], 0)
    if not depth:
        cut = found.end()
path.write_bytes(text[:cut])
path.with_name("base_2.cil").write_bytes(text[cut:])
END
