# Whether a file that is built, `sh make/stale.sh FILE`, is not there, or some source is newer: then it ends with 0. A
# folder is newer once a file was removed from it, or added. A crate may have no folder of one of these names.
root=${0%/*}/..
[ ! -e "$1" ] || [ -n "$(find "$root/crates.txt" "$root"/crates/*/src "$root"/crates/*/specs \
    "$root"/crates/*/proofs -newer "$1" -print -quit 2>/dev/null)" ]
