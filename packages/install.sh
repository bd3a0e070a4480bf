#!/bin/sh
# Installs resp from this folder: install.sh [PREFIX]. The default prefix is /usr/local.
# install.sh --uninstall [PREFIX] removes its files again, and the folders that were made for them.
set -eu
list=share/doc/resp/FILES

# absolute PATH: prints a path from the root on, of a folder that need not exist.
absolute() {
    case $1 in
    /*) echo "$1" ;;
    *) echo "$PWD/$1" ;;
    esac
}

# take_away: removes the files and the folders below the prefix that standard input names. The name of a folder ends
# with a slash. A folder that is not empty stays.
take_away() {
    LC_ALL=C sort -r | while IFS= read -r name; do
        case $name in
        ./ | ../*) ;;
        */) rmdir "$prefix/$name" 2>/dev/null || true ;;
        *) rm -f "$prefix/$name" ;;
        esac
    done
}

# make_folder NAME: makes a folder below the prefix and those above it, and notes each that is new.
make_folder() {
    [ ! -d "$prefix/$1" ] || return 0
    case $1 in */*) make_folder "${1%/*}" ;; esac
    mkdir "$prefix/$1"
    made="$made
$1/"
}

# above NAME: prints the name of the folder above the prefix or above a folder that has such a name.
above() {
    [ "$1" = ./ ] && echo ../ || echo "../$1"
}

if [ "${1-}" = --uninstall ]; then
    prefix=$(absolute "${2:-/usr/local}")
    if [ ! -f "$prefix/$list" ]; then
        echo "install.sh: resp is not installed in $prefix" >&2
        exit 1
    fi
    names=$(cat "$prefix/$list")
    echo "$names" | take_away
    name=./ folder=$prefix
    while echo "$names" | grep -q -x -F "$name" && rmdir "$folder" 2>/dev/null; do
        name=$(above "$name") folder=$(dirname "$folder")
    done
    echo "resp is removed from $prefix"
    exit
fi

prefix=$(absolute "${1:-/usr/local}")
cd "$(dirname "$0")"
before=
[ ! -f "$prefix/$list" ] || before=$(cat "$prefix/$list")
made=$(echo "$before" | grep '/$' || true)
name=./ folder=$prefix
while [ ! -d "$folder" ]; do
    made="$made
$name"
    name=$(above "$name") folder=$(dirname "$folder")
done
mkdir -p "$prefix"
files=$(find bin lib include share -type f -o -type l)
make_folder "${list%/*}"
while IFS= read -r file; do
    make_folder "${file%/*}"
    rm -f "$prefix/$file"
    cp -P -p "$file" "$prefix/$file"
done <<END
$files
END
# (an earlier version did not note that it made the folder of the list)
printf '%s\n' "$files" "$list" "${list%/*}/" "$made" | grep . | LC_ALL=C sort -u >"$prefix/$list"
echo "$before" | grep . | grep -v -x -F -f "$prefix/$list" | take_away
echo "resp is installed in $prefix; 'resp --help' says what it does"
