#!/usr/bin/env bash
# Installs into a temporary folder, builds the example of a listing with the flags that the pkg-config file names, and
# compares what it lists; then DESTDIR, what is refused, and the version. Writes `ok`, or what is wrong, with exit 1.
set -euo pipefail
unset DESTDIR
root=$(realpath "$(dirname "$0")/../..")
folder=$(realpath "$(mktemp -d)")
trap 'rm -rf "$folder"' EXIT
cd "$folder"

fail() {
    echo "install.sh: $1"
    exit 1
}

same() {
    [ "$2" = "$3" ] || fail "$1 is '$2', not '$3'"
}

# The flags that a pkg-config file names, its variables put in. One may name those above it, so the last goes first.
flags() {
    local line replace=()
    while read -r line; do
        replace=(-e "s|\${${line%%=*}}|${line#*=}|g" "${replace[@]}")
    done < <(grep '^[a-z]*=' "$1")
    sed -n "${replace[@]}" -e 's/^Cflags: //p' -e 's/^Libs: //p' "$1" | paste -s -d ' '
}

# A command that is refused: it says these words on the error stream and nothing else, and leaves its folder empty.
refused() {
    local words=$1
    shift
    mkdir empty
    ! (cd empty && "$@") >said 2>error || fail "$* was not refused"
    grep -qF -- "$words" error || fail "$* does not say '$words', but '$(cat error)'"
    [ ! -s said ] || fail "$* says '$(cat said)'"
    rmdir empty || fail "$* wrote a file"
}

# A relative prefix is the caller's, and absolute in the file.
"$root/install" off/../here >said
same "what it says" "$(cat said)" "$(ls -d "$folder"/here/include/* "$folder"/here/lib/*.a "$folder"/here/lib/*/*)"
read -ra found <<<"$(flags here/lib/pkgconfig/zvonurel.pc)"
same "the flags" "${found[*]}" "-I$folder/here/include -L$folder/here/lib -lzvonurel_c"
if command -v pkg-config >/dev/null; then
    read -ra told <<<"$(PKG_CONFIG_PATH=here/lib/pkgconfig pkg-config --cflags --libs zvonurel)"
    same "what pkg-config says" "${told[*]}" "${found[*]}"
fi
gcc -std=c99 -Wall -Wextra -Werror -pedantic "$root/example/listing.c" "${found[@]}" -o listing
./listing | diff "$root/tests/c/listing.txt" - || fail "the listing differs"

# What is put below DESTDIR, for a prefix that the file names without it: the prefix, and the arguments.
staged() {
    local prefix=$1
    shift
    DESTDIR=$folder/stage "$root/install" "$@" >said
    diff "$root/include/zvonurel.h" "stage$prefix/include/zvonurel.h" || fail "the header is not below DESTDIR"
    same "the staged prefix" "$(sed -n 's/^prefix=//p' "stage$prefix/lib/pkgconfig/zvonurel.pc")" "$prefix"
}

# The default comes last: an install that passes DESTDIR by has then failed before it writes there.
staged "$folder/final" "$folder/final"
staged /usr/local

refused "no option -x" "$root/install" -x
refused "PREFIX is empty" "$root/install" ""
refused "one PREFIX at most" "$root/install" one two
refused "letters, digits" "$root/install" "a folder"
refused "letters, digits" "$root/install" @VERSION@

# A folder in a file's place is not filled.
mkdir -p taken/include/zvonurel.h
! "$root/install" taken >said 2>error || fail "a folder in the header's place was taken"
[ -z "$(ls taken/include/zvonurel.h)" ] || fail "the header went into a folder"

# A tree without an archive, and then with one and another version.
mkdir -p copy/include copy/target/staticlib
cp "$root/install" "$root/zvonurel.pc.in" copy
sed 's/^#define ZV_VERSION .*/#define ZV_VERSION "7.8.9"/' "$root/include/zvonurel.h" >copy/include/zvonurel.h
refused "run \`./build\` at" "$folder/copy/install" there
cp "$root/target/staticlib/libzvonurel_c.a" copy/target/staticlib
copy/install "$folder/there" >said
same "the version" "$(sed -n 's/^Version: //p' there/lib/pkgconfig/zvonurel.pc)" 7.8.9

copy/install -h >said
grep -qF 'install [PREFIX]' said || fail "-h does not say what it does"
echo ok
