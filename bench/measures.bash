# Read by the scripts of bench/ that run a crate of measures; `top` is the repository's folder.

# Sets `measures` to the program of this crate, which is built where it isn't there or a source is newer. The other words are those of
# a short run of it, which it then does; what that writes goes to standard error.
find_measures() {
    local crate=$1
    shift
    measures=$top/crates/$crate/out/$crate
    if [ ! -x "$measures" ] || [ -n "$(find "$top"/crates/*/src -name '*.rt' -newer "$measures" -print -quit)" ]; then
        (cd "$top/crates/$crate" && rt run -- "$@" >&2)
    fi
}
