#!/bin/sh
# Copies the libraries of arrays into another Rattle repository, and prints their lines for its crates.txt.
#
#     ./use_in.sh [--with-proofs] [--libraries 'NAME ..'] REPOSITORY [VERSION]
#
# NAME is a crate under '# Libraries' in crates.txt: it comes with all that it stands on. Left out, it is each library of arrays:
# nd_array_core, nd_stacking, nd_iter, nd_linalg, nd_numeric. VERSION is a commit or a tag of this repository; HEAD if left out. It
# stops where a library's folder is there already.
#
# The first check of a caller proves the libraries, which takes some twenty minutes on four processors. --with-proofs copies what `rt`
# kept here, some 3 GB, and the first check then takes a few minutes. For that each library must have been built in this tree by `rt lib`
# or by a check of a crate above it, at that version: the script stops at one that wasn't, and says what to run.
set -eu
wanted="nd_array_core nd_stacking nd_iter nd_linalg nd_numeric"
proofs=
while [ $# -gt 0 ]; do
    case $1 in
        --with-proofs) proofs=1; shift ;;
        --libraries) [ $# -ge 2 ] || break; wanted=$2; shift 2 ;;
        *) break ;;
    esac
done
[ $# -ge 1 ] && [ $# -le 2 ] && [ -d "$1" ] || { sed -n '2,/^set/s/^# \{0,1\}//p' "$0"; exit 2; }
target=$(cd "$1" && pwd)
cd "$(dirname "$0")"
version=$(git rev-parse --verify --quiet "${2:-HEAD}^{commit}") || { echo "there is no version ${2:-HEAD}"; exit 1; }
into=$target/crates
[ -d "$into" ] || [ ! -f "$target/crates.txt" ] || into=$target

# The lines of crates.txt under its first heading, in which each library stands after those that it needs.
lines=$(git show "$version:crates.txt" | sed -n '/^# Libraries$/,/^$/p' | grep ':')
below() { echo "$lines" | sed -n "s/^$1: *//p"; }
libraries=
for name in $wanted; do
    echo "$lines" | grep -q "^$name:" || { echo "crates.txt lists no library $name"; exit 1; }
    libraries="$libraries $name"
done
# What is needed comes in until nothing new does.
before=
while [ "$before" != "$libraries" ]; do
    before=$libraries
    for name in $before; do
        for needed in $(below "$name"); do
            case " $libraries " in *" $needed "*) ;; *) echo "$lines" | grep -q "^$needed:" && libraries="$libraries $needed" ;; esac
        done
    done
done
libraries=$(echo "$lines" | cut -d: -f1 | grep -xF "$(printf '%s\n' $libraries)")

for library in $libraries; do
    [ ! -e "$into/$library" ] || { echo "$into/$library is there already: remove it first"; exit 1; }
    [ -n "$proofs" ] || continue
    git diff --quiet "$version" -- "crates/$library" || { echo "crates/$library isn't as in that version"; exit 1; }
    # rt takes a library as built where its stamp names all files that it was made from.
    sources="${sources:-} crates/$library/src crates/$library/specs crates/$library/proofs"
    stamp=crates/$library/out/rlib/stamp
    [ -f "$stamp" ] && [ -z "$(find $sources -type f -newer "$stamp" 2> /dev/null | head -1)" ] || {
        echo "$library isn't built here: (cd crates/$library && rt lib)"
        exit 1
    }
done
mkdir -p "$into"
for library in $libraries; do
    git archive "$version" "crates/$library" | tar -x -C "$into" --strip-components=1
    [ -z "$proofs" ] || cp -a "crates/$library/out" "$into/$library/out"
done
for library in $libraries; do
    [ "$library" != nd_array_core ] || cp LICENSE-APACHE LICENSE-MIT "$into/nd_array_core/"
done

echo "The libraries of version $version are in $into. Lines for crates.txt, the last for a crate of yours:"
echo
for library in $libraries; do
    echo "$lines" | grep "^$library:"
done
echo "my_crate:" $wanted
