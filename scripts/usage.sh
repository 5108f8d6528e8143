# What the scripts of the shell begin with: where their words ask for help or are wrong, the usage at their head is told, and nothing
# else is done.

# the usage line, and the end with a status
usage() {
    sed -n 's/^# \(usage: .*\)/\1/p' "$0"
    exit "$1"
}

# so many words at least and at most, of which the first doesn't begin with a dash
words() {
    least=$1 most=$2
    shift 2
    case ${1-} in
    --help | -h) usage 0 ;;
    -*) ;;
    *) if [ $# -ge "$least" ] && [ $# -le "$most" ]; then return; fi ;;
    esac
    usage 2 >&2
}
