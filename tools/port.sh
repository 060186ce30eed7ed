#!/bin/sh
# Makes LANDED in today's spelling, to be laid beside what stands: tools/port.sh FOLDER, a folder that is not there yet
# port.py passes over a crate named target, as over a build folder, so it runs with that crate under another name; then respell.py, until nothing is left, and choose.py.
set -eu
[ $# -eq 1 ] && [ ! -e "$1" ] || { sed -n '2,3p' "$0" | cut -c3- >&2; exit 2; }
here=$(cd "$(dirname "$0")/.." && pwd -P)
git clone -q "$here" "$1"
cd "$1"
git checkout -q f34c6017ac5395677fc1cf753b6e852acdc4ad4e
git mv crates/target crates/zztarget
grep -rlE '\btarget\b' crates crates.txt | xargs sed -i -E 's/\btarget\b/zztarget/g'
git add -A
git -c user.name=port -c user.email=port@localhost commit -qm 'target under another name'
python3 "$(dirname "$(rt doc)")/port/port.py"
grep -rlE '\bzztarget\b' crates crates.txt | xargs sed -i -E 's/\bzztarget\b/target/g'
mv crates/zztarget crates/target
for turn in 1 2 3; do python3 "$here/tools/respell.py"; done
python3 "$here/tools/choose.py"
