# Runs a proved program of this repository. If it isn't built yet, or a source is newer, dev/build_proved.py proves and
# builds it first, which can be interrupted: the next call goes on with what is proved. ./ick and ./ick-outcomes read
# this script, and name the repository's folder `top`, the program `name` and its crate `crate`.
# shellcheck disable=SC2154 # they are set there

say() { echo "$name: $*" >&2; }

not_built() {
    say "not built: $*"
    exit 70
}

name_files() {
    program=$top/crates/$crate/out/$crate
    list=$top/crates/$crate/out/sources
    log=$top/crates/$crate/out/build.log
    began=$top/crates/$crate/out/build.began
}

# Lists the files that the program is made and proved from, and the folders of those that it is made from. A folder is
# newer if a file came or went. The list is kept for the next call, since to find the files takes longer than to look at
# them.
list_sources() {
    if [ "$list" -nt "$program" ]; then
        # shellcheck source=/dev/null
        . "$list"
        return
    fi
    sources=$(cd -- "$top" && find crates.txt HANDLES crates/*/src crates/*/specs && find crates/*/proofs -type f) ||
        return
    { echo "sources='$sources'" >"$list.$$" && mv -f -- "$list.$$" "$list"; } 2>/dev/null || rm -f -- "$list.$$"
}

# Whether there is a program, its last build came to its end, and it is newer than all sources.
is_current() {
    [ -x "$program" ] && [ ! -e "$began" ] && list_sources || return
    for source in $sources; do
        [ "$program" -nt "$top/$source" ] || return
    done
}

test_that_it_can_be_built() {
    command -v python3 >/dev/null || not_built "there is no python3 on the PATH"
    why=$(python3 -B "$top/dev/kit.py") || not_built "$why"
    for folder in "$top"/crates/*/; do
        mkdir -p -- "${folder}out" 2>/dev/null && [ -w "${folder}out" ] || not_built "${folder}out can't be written"
    done
}

# Proves and links the program, and tries whether it prints its help. The program's age is then that of the build's
# beginning, so that a source that was written meanwhile is newer.
prove_and_link() {
    python3 -B "$top/dev/build_proved.py" "$top" "$crate" </dev/null >"$log" &&
        touch -r "$began" -- "$program" && rm -- "$began"
}

build() {
    sleep 0.02 # so that what was written just now is older, even if the clock of files is coarse
    : >"$began"
    say "building; the log is $log"
    prove_and_link || not_built "$log says why"
}

# If two calls come at once, one builds, and the other waits and runs what it built.
build_or_wait() {
    if ! flock -n 9; then
        say "waiting for another build, whose log is $log"
        flock 9
        [ ! -e "$began" ] || not_built "$log says why"
    fi
    is_current || build
}

name_files
if ! is_current; then
    top=$(cd -- "$top" && pwd) && name_files
    test_that_it_can_be_built
    (build_or_wait) 9<"$top/crates" || exit
fi
exec "$program" "$@"
