#!/usr/bin/env bash
# Uses git's threads in a new repository: use_git.sh FOLDER
# It packs the repository, makes the index of the pack again, which has to be the same, and searches.
set -eu
mkdir -- "$1"
cd -- "$1"
export GIT_CONFIG_GLOBAL=/dev/null GIT_CONFIG_SYSTEM=/dev/null
git init -q
for i in {1..100}; do seq "$i" "$((i + 2000))" > "file$i"; done
git add .
git -c user.name=none -c user.email=none@example.org commit -q -m 'all files'
git -c core.preloadIndex=true -c index.threads=4 status --porcelain
git -c pack.threads=4 repack -a -d -f -q
pack=$(echo .git/objects/pack/*.pack)
git index-pack --threads=4 -o again.idx "$pack" > index
cmp again.idx "${pack%.pack}.idx"
[ "$(git grep --threads=4 -c 1999 | wc -l)" = 100 ]
git fsck --full > told 2>&1
