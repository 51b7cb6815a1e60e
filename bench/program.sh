# SPDX-License-Identifier: Apache-2.0
# Read by the benchmarks' `run`. A benchmark is a program that is no crate of the repository, so
# that the gate neither proves nor runs it; so its text is main.rt.txt, and stands in a folder of
# its own beside copies of the crates that it needs.
#
#     program NAME LIBRARY..
#
# makes that folder, with main.rt.txt of the folder of the script that runs as the crate NAME, which
# stands on these libraries, and goes into the crate. The folder is a temporary one. A folder that
# BENCH_FOLDER names is kept, so that what is proved and built there is run again at once. With
# BENCH_READ its text is only read and typed over the crates as they are: nothing is proved or run.
set -eu
here=$(cd "$(dirname "$0")" && pwd)
top=$(cd "$here/../.." && pwd)
if [ -n "${BENCH_FOLDER:-}" ]; then
    mkdir -p "$BENCH_FOLDER"
    folder=$(cd "$BENCH_FOLDER" && pwd)
else
    folder=$(mktemp -d)
    trap 'rm -rf "$folder"' EXIT
    trap 'exit 1' HUP INT TERM
fi

# The crates of the repository among these libraries, and those that they stand on, each once.
crates_below() {
    below=" "
    while [ $# -gt 0 ]; do
        library=$1
        shift
        case $below in *" $library "*) continue ;; esac
        # What has no line is the kit's.
        line=$(grep "^$library:" "$top/crates.txt") || continue
        below="$below$library "
        # shellcheck disable=SC2086
        set -- "$@" ${line#*:}
    done
    echo "$below"
}

# A crate without what its checks keep, but with the library that they built: it is linked where
# that can be, since it is large, and rt builds another where it isn't that of these sources.
copy_crate() {
    from=$top/crates/$1
    to=$folder/crates/$1
    mkdir -p "$to/out"
    find "$to" -mindepth 1 -maxdepth 1 ! -name out -exec rm -r {} +
    for part in "$from"/*; do
        [ "${part##*/}" = out ] || cp -r "$part" "$to/"
    done
    if [ -d "$from/out/rlib" ] && ! [ -d "$to/out/rlib" ]; then
        cp -al "$from/out/rlib" "$to/out/" 2> /dev/null || cp -a "$from/out/rlib" "$to/out/"
    fi
}

program() {
    name=$1
    shift
    mkdir -p "$folder/crates/$name/src"
    cp "$top/HANDLES" "$folder/"
    echo "$name: $*" > "$folder/crates.txt"
    for crate in $(crates_below "$@"); do
        copy_crate "$crate"
        grep "^$crate:" "$top/crates.txt" >> "$folder/crates.txt"
    done
    cp "$here/main.rt.txt" "$folder/crates/$name/src/main.rt"
    cd "$folder/crates/$name"
    if [ -n "${BENCH_READ:-}" ]; then
        rt check --only ""
        exit
    fi
}
