# What ick-parts-parallel and ick-parts-slurm share: how their arguments are read, and rounds of a plan and its parts.
# The script that reads this file has its folder in `tools`, `run_parts`, which starts the parts of a round and sets
# `running`, and `end_parts`, which ends them.
# shellcheck disable=SC2034,SC2154
tool=${0##*/}

say() { echo "$tool: $*" >&2; }

show_help() { sed -n '2,/^set -u/{/^set -u/d;s/^# \{0,1\}//;p;}' "$0"; }

show_version() {
    version=$("$tools/ick-parts" --version) && echo "$tool ${version#* }"
}

usage_error() {
    say "$*; --help says more"
    exit 2
}

# read_arguments COMMAND NAME ARGUMENT..: the command is what the parts need, and has a name for users.
read_arguments() {
    command=$1 name=$2
    shift 2
    case ${1-} in
        -h | --help)
            show_help
            exit
            ;;
        --version)
            show_version
            exit
            ;;
        -*) usage_error "there is no option $1" ;;
    esac
    [ $# -ge 3 ] || usage_error "it needs DIR, PIECES and SECONDS"
    [ -d "$1" ] || usage_error "there is no folder $1"
    command -v "$command" >/dev/null || {
        say "there is no $name on the PATH"
        exit 4
    }
    PATH=$PATH:$(cd -- "$(dirname -- "$0")" && pwd)
    dir=$(cd -- "$1" && pwd) || exit 1
    pieces=$2 seconds=$3 before='' running='' following=''
}

count_seals() { find "$dir/parts" -name '*.seals' -exec cat {} + | grep -vc '^ick-parts'; }

end_following() { [ -z "$following" ] || { kill "$following" && wait "$following"; } 2>/dev/null; }

stop() {
    trap '' HUP INT TERM
    [ -z "$running" ] || end_parts 2>/dev/null
    exit "$1"
}

# run_rounds WHY OPTION..: makes rounds until all is listed. The options are for `run_parts`. If a round lists nothing,
# WHY is told.
run_rounds() {
    why=$1
    shift
    trap end_following EXIT
    trap 'stop 129' HUP
    trap 'stop 130' INT
    trap 'stop 143' TERM
    ick-parts status "$dir" --follow >&2 &
    following=$!
    while count=$(ick-parts plan "$dir" "$pieces") && [ "$count" != 0 ]; do
        seals=$(count_seals)
        if [ "$seals" = "$before" ]; then
            say "the last round listed nothing$why"
            exit 1
        fi
        before=$seals
        run_parts "$@"
        wait "$running"
        running=''
    done
    [ "$count" = 0 ]
}
