# What the scripts beside it share: where things are, how they refuse, what they check, and how they build the demo. A
# script has a function `explain`, which writes its help.
root=$(dirname -- "$(dirname -- "$(readlink -f -- "${BASH_SOURCE[0]}")")")
platform=x86_64-unknown-linux-gnu
commands=$root/target/cargo/$platform/release

refuse() {
    printf '%s Nothing was answered.\n' "$1" >&2
    exit 1
}

# Help, wherever it is asked for.
help_first() {
    local argument
    for argument; do
        case $argument in
        -h | --help)
            explain
            exit
            ;;
        esac
    done
}

# A file that should be `a log` or `an archive`.
check_file() {
    [ -e "$1" ] || refuse "$1: there is no such file: mend its name or its folder."
    [ ! -d "$1" ] || refuse "$1: this is a folder: name $2 in it."
    [ -r "$1" ] || refuse "$1: you may not read this file: ask its owner to allow it."
}

check_colours() {
    local colours=$1 rest=$1+ part seen=+
    while [ -n "$rest" ]; do
        part=${rest%%+*}
        rest=${rest#*+}
        case $part in
        '') refuse "A colour is missing in \`$colours\`: join green, amber and red by +, as amber+red." ;;
        green | amber | red) ;;
        *) refuse "\`$part\` is no colour: ask for green, amber or red, or for several, as amber+red." ;;
        esac
        [[ $seen != *"+$part+"* ]] || refuse "\`$part\` is named twice: name each colour once."
        seen+=$part+
    done
}

# The number of the line `tanks N`, if so many lines of tanks are there. Of another log, or of one that can be read but
# once, the demo judges.
tanks_of() {
    [ ! -f "$1" ] || LC_ALL=C awk '
        NR == 1 { sub(/^\xEF\xBB\xBF/, "") }
        { sub(/\r$/, "") }
        /^[ \t]*tanks[ \t]+([1-9]|[1-7][0-9]|8[0-5])[ \t]*$/ { said = $2 + 0; heads++; next }
        /^[ \t]*(#|$|tanks|from)/ { next }
        { there++ }
        END { if (heads == 1 && there == said) print said }' <"$1"
}

check_threshold() {
    local t=$1 tanks=$2 n
    for ((n = 1; n <= tanks; n++)); do
        [ "$t" != "$n" ] || return 0
    done
    [ "$tanks" != 1 ] || refuse "There is 1 tank, so ask for 1."
    refuse "There are $tanks tanks, so ask for 1 to $tanks."
}

# A date and a time of day. Other characters than those of ASCII are left to the demo, which shows them so that they can
# be seen.
check_time() {
    local date=$1 time=$2 LC_ALL=C
    [[ $date$time =~ ^[\ -~]*$ ]] || return 0
    [[ $date =~ ^[0-9]{4}-[0-9]{2}-[0-9]{2}$ && $date != 0000* && $(date -u -d "$date" +%F 2>/dev/null) == "$date" ]] ||
        refuse "\`$date\` is no date: ask for one as 2026-03-12 22:00."
    [[ $time =~ ^([01][0-9]|2[0-3]):[03]0$ ]] ||
        refuse "\`$time\` is none of the times 00:00, 00:30 and so on to 23:30: ask for one as 2026-03-12 22:00."
}

# Standard input is left to the demo, whose log may be that. The library that was just proved is linked, and the demo
# lands in $commands, whatever the caller has set.
build_demo() {
    command -v cargo >/dev/null || refuse "There is no cargo, which builds the demo: install Rust."
    "$root/build" </dev/null >&2
    (cd -- "$root" && ZVONUREL_LIB=$PWD/target/staticlib \
        cargo build --quiet --release --package tanks --target "$platform" --target-dir target/cargo) </dev/null >&2
}
