#!/usr/bin/env bash
# vendor.sh FOLDER [CRATE..]: makes FOLDER a repository of your own that has crates of this one. A crate stands only on
# crates of its own repository and of the toolchain, so FOLDER gets copies: of each CRATE and of those below it. A program
# crates/use_* among them becomes crates/my_program, to begin with, where there is none yet; a new FOLDER gets use_wakeup
# where no CRATE is named. Called again it brings the copies up to date, and leaves all else as it is. It proves nothing,
# but takes along the libraries that are proved here: in FOLDER `./build my_program` proves the rest.
set -euo pipefail
top=$(cd "$(dirname "${BASH_SOURCE[0]}")/.." && pwd -P)
about="# The crates of nio, by its bench/vendor.sh:"

# The lines of crates.txt by their crates, and these in their order; the crates to be copied; the lines of FOLDER's
# crates.txt that stay.
declare -A row=() needed=()
order=() own=()

fail() {
    echo "vendor: $1" >&2
    exit 1
}

read_crates() {
    local line
    while read -r line; do
        line=${line%%#*}
        if [ -z "$line" ]; then continue; fi
        row[${line%%[ :]*}]=$line
        order+=("${line%%[ :]*}")
    done <"$top/crates.txt"
}

need() {
    if [[ -n ${needed[$1]-} || $1 == use_* ]]; then return; fi
    needed[$1]=yes
    need_below "$1"
}

need_below() {
    local crate
    for crate in ${row[$1]#*:}; do
        if [ -n "${row[$crate]-}" ]; then need "$crate"; fi
    done
}

# Reads FOLDER's crates.txt: what stands there of this repository is needed, and the other lines stay.
read_own() {
    local line crate
    while read -r line; do
        crate=${line%%[ :]*}
        if [ -n "${row[$crate]-}" ]; then
            need "$crate"
        elif [ "$line" != "$about" ]; then
            own+=("$line")
        fi
    done <crates.txt
}

# begin_with PROGRAM: copies the program as crates/my_program.
begin_with() {
    local file text
    cp -R "$top/crates/$1" crates/my_program
    rm -rf crates/my_program/out
    while read -r file; do
        text=$(<"$file")
        printf '%s\n' "${text//$1/my_program}" >"$file"
    done < <(find crates/my_program/proofs -type f 2>/dev/null)
    own+=("my_program${row[$1]#"$1"}")
}

# copy CRATE: copies the crate, and its library where that is proved here.
copy() {
    local part
    rm -rf "crates/$1"/{src,specs,proofs}
    for part in src specs proofs out/rlib; do
        if [ ! -d "$top/crates/$1/$part" ]; then continue; fi
        rm -rf "crates/$1/$part"
        mkdir -p "$(dirname "crates/$1/$part")"
        cp -R "$top/crates/$1/$part" "crates/$1/$part"
    done
}

folder=$(realpath -m "${1:?the folder of the repository is wanted}")
shift
read_crates
for crate in "$@"; do
    if [ -z "${row[$crate]-}" ]; then fail "crates.txt lists no crate '$crate'"; fi
done
if [[ $folder/ == "$top"/* ]]; then fail "the repository can't stand in this one"; fi
mkdir -p "$folder"
cd "$folder"
if [ -f crates.txt ]; then
    read_own
elif [ -n "$(ls -A)" ]; then
    fail "$folder isn't empty, and has no crates.txt"
elif [ $# -eq 0 ]; then
    set -- use_wakeup
fi
mkdir -p crates
for crate in "$@"; do
    need "$crate"
    need_below "$crate"
    if [[ $crate == use_* && ! -d crates/my_program ]]; then begin_with "$crate"; fi
done
lines=("$about")
for crate in "${order[@]}"; do
    if [ -z "${needed[$crate]-}" ]; then continue; fi
    copy "$crate"
    lines+=("${row[$crate]}")
done
printf '%s\n' "${lines[@]}" "${own[@]}" >crates.txt
cp "$top/build" build
if [ ! -e HANDLES ]; then cp "$top/HANDLES" HANDLES; fi
if [ ! -e .gitignore ]; then echo out/ >.gitignore; fi
if [ ! -e .git ] && command -v git >/dev/null; then git init -q; fi
echo "vendor: $folder has ${#needed[@]} crates of nio"
