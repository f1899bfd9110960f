# shellcheck shell=sh
# usage.sh: what every script does with its words. Each sources this file first and then calls
#
#   usage LEAST MOST "$@"
#
# With --help it prints the comment at the script's head and ends. It refuses an option, as no script has any, and fewer or more
# words than these: it says how the script is called and ends with 2. `-` is no option but a word.

usage() {
    least=$1 most=$2
    shift 2
    # The script may go elsewhere before it refuses, so its head is read here.
    takes=$(sed -n '2s/^# \([^:]*\):.*/\1/p' "$0")
    for word in "$@"; do
        case $word in
        -h | --help)
            sed -n '2,/^[^#]/s/^# \{0,1\}//p' "$0"
            exit 0
            ;;
        -?*) refuse "there is no option $word" ;;
        esac
    done
    if [ $# -lt "$least" ] || [ $# -gt "$most" ]; then
        refuse "$# words are given"
    fi
}

# refuse WHY: ends with 2. The script's head begins with its name and the words that it takes.
refuse() {
    echo "${0##*/}: $1; usage: $takes" >&2
    exit 2
}
