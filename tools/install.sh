#!/bin/sh
# install.sh [--uninstall] [PREFIX]
# Installs what lies beside it under PREFIX, or /usr/local, in place of what it installed there before; --uninstall removes exactly what it installed.
# PREFIX/libexec/ratchetelm/installed.txt lists that.
# Environment:
#   DESTDIR  a folder to put before every path, for what will be moved to its place later
#   LIBDIR   the folder for the libraries in place of PREFIX/lib
# Status: 0, 1 where it can't be done (then nothing is left of it), 2 where it was asked wrongly
set -u

told() {
    sed -n '2,/^set/s/^# \{0,1\}//p' "$0"
}

fail() {
    echo "install.sh: $2" >&2
    exit "$1"
}

task=installed
case ${1-} in
--help) told; exit 0 ;;
--uninstall) task=uninstalled; shift ;;
-*) told >&2; exit 2 ;;
esac
[ $# -le 1 ] || { told >&2; exit 2; }
stage=${DESTDIR-} prefix=${1:-/usr/local}
stage=${stage%/} prefix=${prefix%/}
libdir=${LIBDIR:-$prefix/lib}
list=$prefix/libexec/ratchetelm/installed.txt
for path in "$prefix/" "$libdir"; do
    case $path in /*) ;; *) fail 2 "$path is a relative path: give an absolute one" ;; esac
done
case $stage in '' | /*) ;; *) stage=$PWD/$stage ;; esac
CDPATH='' cd "$(dirname "$0")" || exit 1

# removed PATHS: the files, then the folders, which end with /, where nothing else is in them: the innermost first.
removed() {
    printf '%s\n' "$1" | grep -v '/$' | while read -r path; do rm -f "$stage$path" || exit 1; done || return 1
    printf '%s\n' "$1" | grep '/$' | sort -r | while read -r path; do rmdir "$stage$path" 2>/dev/null; done
    return 0
}

uninstalled() {
    [ -e "$stage$list" ] || fail 1 "nothing is installed there: there is no $stage$list"
    removed "$(cat "$stage$list")" || fail 1 "some of what $stage$list names can't be removed"
}

# files: what there is to install.
files() {
    find bin include lib libexec share ! -type d
}

# placed: of each file on standard input, where it will be.
placed() {
    while read -r file; do
        case $file in lib/*) echo "$libdir/${file#lib/}" ;; *) echo "$prefix/$file" ;; esac
    done
}

# missing: of each path on standard input, the folders that aren't there.
missing() {
    while read -r path; do
        path=${path%/*}
        while [ ! -d "$stage$path/" ]; do
            echo "$path/"
            path=${path%/*}
        done
    done | sort -u
}

# put FILE PATH: a link as it is; the pkg-config file says where it is.
put() {
    rm -f "$2" || return 1
    case $1 in
    lib/pkgconfig/*) { printf 'prefix=%s\nlibdir=%s\n' "$prefix" "$libdir"; sed 1,2d "$1"; } >"$2" ;;
    *) cp -P "$1" "$2" ;;
    esac || return 1
    [ -L "$2" ] || chmod u=rwX,go=rX "$2"
}

# filled PATHS: makes the folders and puts the files, the list first, so that it can be undone whatever happens.
filled() {
    printf '%s\n' "$1" | grep '/$' | while read -r path; do mkdir -m 755 "$stage$path" || exit 1; done || return 1
    printf '%s\n' "$1" >"$stage$list" || return 1
    files | while read -r file; do put "$file" "$stage$(echo "$file" | placed)" || exit 1; done
}

installed() {
    [ ! -e "$stage$list" ] || uninstalled
    mkdir -p "$stage/" || exit 1
    paths=$(files | placed; echo "$list")
    paths=$(echo "$paths"; echo "$paths" | missing)
    filled "$paths" || { removed "$paths"; fail 1 "it can't be installed under $stage$prefix"; }
    echo "installed under $stage$prefix; where programs shall find the shared library by themselves, run ldconfig"
}

trap 'exit 1' HUP INT TERM
$task
