# Sourced by the scripts beside it: proves and builds a program where it is not built since the last change, and runs it
# in the current folder.

# run_program NAME [WORD..]
run_program() {
    local name=$1 top crate program
    shift
    top=$(cd "$(dirname "${BASH_SOURCE[0]}")" && pwd)
    crate=$top/crates/$name
    program=$crate/out/$name
    if [ ! -x "$program" ] || [ -n "$(find "$top/crates" "$top/crates.txt" -name out -prune -o -type f -newer "$program" -print -quit)" ]; then
        echo "$name: proving and building it, which takes some minutes the first time" >&2
        rm -f "$program"
        mkdir -p "$crate/out"
        # With these words a program touches nothing and ends with status 2, so only the file tells whether it was built.
        (cd "$crate" && rt run -- --slots 0) </dev/null >"$crate/out/build.log" 2>&1 || true
        if [ ! -x "$program" ]; then
            tail -n 20 "$crate/out/build.log" >&2
            exit 1
        fi
    fi
    exec "$program" "$@"
}
