#!/bin/sh
# The door of the program: builds it where it is not built or its sources changed, and becomes it. Where standard error is a
# terminal it runs it instead, and says there afterwards what a person needs; `check` says where a text is refused anywhere.
# What is said stands in door/messages. `--unproved` runs the program without its proofs.
set -u
self=$0
[ ! -h "$self" ] || self=$(readlink -f -- "$self")
case $self in */*) here=${self%/*} ;; *) here=. ;; esac
out=$here/crates/prolog/out
program=$out/prolog
# The sum of the sources of the program that is built; the program's time is one before they were read.
built=$out/sources.sum
limit=16777216

say() { printf '%s\n' "$*" | LC_ALL=C tr '\000-\010\013-\037\177' '?' >&2; }
tell() { say "prolog: $(sentence "$@")"; }
of_form() { say "    ./prolog $1"; }

# --- what the words are

# The row of a table of the messages with this name: its fields are in $name, $two, $three and $four.
row() {
    while IFS='|' read -r name two three four _; do
        [ "$name" != "$2" ] || return 0
    done <<END
$($1)
END
    return 1
}

# Whether a text is a number from one to another, as the program reads it.
is_number() {
    digits=${1#+}
    case $digits in '' | *[!0-9]*) return 1 ;; esac
    digits=${digits#"${digits%%[!0]*}"}
    [ -n "$digits" ] && [ ${#digits} -le ${#3} ] && [ "$digits" -ge "$2" ] && [ "$digits" -le "$3" ]
}

# The first fault of the words is kept, as the key of a sentence and what it speaks of.
fault() { [ -n "$fault" ] || { fault=$1 fault_a=${2-} fault_b=${3-} fault_c=${4-} fault_d=${5-}; }; }

# One option, with the value behind its `=`, or else the next word if there is one.
read_option() {
    row options "$1" || { fault unknown_option "--$1"; return; }
    case $options in *" $1 "*) fault option_twice "$1" ;; esac
    options="$options$1 "
    if [ -z "$two" ]; then [ -z "${2+x}" ] || fault value_unwanted "$1"; return; fi
    [ -n "${2+x}" ] || { fault no_value "$1"; return; }
    [ -z "$three" ] || is_number "$2" "$three" "$four" || fault no_number "$1" "$three" "$four" "$2"
    [ "$1" != goal ] || goal=$2
}

# Reads the words as the program does: the form's name, its files, its options, and the first fault.
read_words() {
    form='' files=0 first='' second='' options=' ' fault='' goal='' all=''
    while [ $# -gt 0 ]; do
        word=$1
        shift
        case $all$word in
        --) all=. ;;
        --*=*) word=${word#--}; read_option "${word%%=*}" "${word#*=}" ;;
        --*)
            if ! row options "${word#--}" || [ -z "$two" ]; then read_option "${word#--}"; continue; fi
            case ${1--?} in -?*) read_option "${word#--}" ;; *) read_option "${word#--}" "$1"; shift ;; esac
            ;;
        -?*) fault unknown_option "$word" ;;
        *) read_path "$word" ;;
        esac
    done
    [ -n "$form" ] || { fault no_form; return; }
    row forms "$form" || return 0
    for word in $options; do
        case " $three " in *" $word "*) ;; *) fault option_of_other "$word" "$form" ;; esac
    done
    [ "$files" -ge "$two" ] || fault no_path "$form"
}

# The first word that is no option is the form's name, and those behind it are paths.
read_path() {
    if [ -z "$form" ]; then
        form=${1:-''}
        row forms "$form" || fault unknown_form "$1"
        return
    fi
    files=$((files + 1))
    case $files in 1) first=$1 ;; 2) second=$1 ;; esac
    if row forms "$form" && [ "$files" -gt "$two" ]; then fault word_too_many "$1"; fi
}

# --- what is said

# What is wrong with the words, and the line of their form, or those of all forms.
say_fault() {
    tell "$@"
    if row forms "$form"; then of_form "$four"; return; fi
    forms | while IFS='|' read -r _ _ _ written _; do of_form "$written"; done
}

# Why a file cannot be read, or that it is too long; false where there is no such thing to say.
say_unread() {
    if [ ! -e "$1" ]; then tell no_file "$1"
    elif [ -d "$1" ]; then tell is_folder "$1"
    elif [ ! -r "$1" ]; then tell no_permission "$1"
    else return 1; fi
}
say_long() { [ -f "$1" ] && size=$(wc -c <"$1") && [ "$size" -gt $limit ] && tell too_long "$1" "$size"; }

# Where a text is refused, what that means, its usual causes, and the lines round the place.
say_refusal() {
    [ -f "$first" ] && said=$("$program" check -- "$first" 2>/dev/null) && return
    # refused: line L column C: KIND
    # shellcheck disable=SC2086
    set -- ${said-}
    [ $# -eq 6 ] && [ "$1" = refused: ] || return 0
    line=$3 column=${5%:} of=$6
    shown=$(LC_ALL=C tr '\000' '\001' <"$first" | LC_ALL=C sed -n "$line,$((line + 4))p;$((line + 4))q" |
        LC_ALL=C awk -f "$here/door/excerpt.awk" column="$column" kind="$of")
    key=$of
    [ "$of" != lex ] || key=${shown%%"
"*}
    sentence "$key" | {
        read -r means
        say "$first:$line:$column: $of: $means. The usual causes:"
        while read -r cause; do say "    - $cause"; done
    }
    printf '%s\n' "${shown#*"
"}" >&2
}

# Status 64 with words that are right: a path that is no UTF-8, or a goal that is none. A run of the text has written its report.
say_usage() {
    [ -z "$fault" ] || { say_fault "$fault" "$fault_a" "$fault_b" "$fault_c" "$fault_d"; return; }
    "$program" check -- "$first" >/dev/null 2>&1 || [ $? -ne 64 ] || { say_fault not_text; return; }
    [ "$form" = run ] && case $options in *' goal '*) ;; *) false ;; esac || return 0
    [ -n "$("$program" run --steps 1 --goal="$goal" /dev/null 2>/dev/null)" ] || say_fault no_goal
}

# What a person needs to know of the status with which the program ended.
say_status() {
    case $1 in
    0 | 69) ;;
    64) say_usage ;;
    65) say_refusal ;;
    66) say_unread "$first" || { [ -n "$second" ] && say_unread "$second"; } || say_probed 66 read_fault ;;
    67) say_long "$first" || { [ -n "$second" ] && say_long "$second"; } || say_probed 67 endless ;;
    *) if row statuses "$1"; then tell of_status "$1" "$two"; fi ;;
    esac
}

# A fault of reading that shows itself again.
say_probed() {
    [ -f "$first" ] || [ -b "$first" ] || return 0
    "$program" check -- "$first" >/dev/null 2>&1 || [ $? -ne "$1" ] || tell "$2" "$first"
}

# --- the program

# Sources that are newer than the program: by -cnewer, for which some systems have no option, from their status, which nothing sets back.
newer() { (cd "$here" && find crates/*/src crates/*/specs crates.txt "$1" crates/prolog/out/prolog 2>/dev/null); }
sum() { (cd "$here" && find crates/*/src crates/*/specs crates.txt -type f -exec sha256sum {} + | LC_ALL=C sort -k 2 | sha256sum | cut -c 1-32); }

# Whether the program is that of the sources as they stand. What the gate has built has no sum yet.
is_fresh() {
    [ -x "$program" ] || return 1
    if [ -f "$built" ] && since=$(newer -cnewer) && [ -z "$since" ]; then return 0; fi
    began=$out/began.$$
    (true >"$began") 2>/dev/null || began=''
    now=$(sum)
    if [ -f "$built" ]; then [ "$(cat "$built")" = "$now" ]; else is_newest; fi
    found=$?
    [ -n "$began" ] || return $found
    [ $found -ne 0 ] || { echo "$now" >"$built" && touch -r "$began" "$program"; }
    rm -f "$began"
    return $found
}
is_newest() { since=$(newer -cnewer) || since=$(newer -newer) && [ -z "$since" ]; }

# Runs the program with these words, passes signals on, and says what its status means.
run_and_say() {
    caught=''
    for signal in HUP INT QUIT TERM; do
        # shellcheck disable=SC2064
        trap "caught=$signal; kill -s TERM \$! 2>/dev/null" $signal
    done
    if (: <&0) 2>/dev/null; then exec 3<&0; else exec 3</dev/null; fi
    "$program" "$@" <&3 3<&- &
    # (a shell may tell of a signal that ended the program)
    wait $! 2>/dev/null
    status=$?
    while [ $status -gt 128 ] && kill -0 $! 2>/dev/null; do wait $! 2>/dev/null; status=$?; done
    exec 3<&-
    if [ -n "$caught" ]; then trap - "$caught"; kill -s "$caught" $$; fi
    trap - HUP INT QUIT TERM
    read_words "$@"
    if [ -t 2 ] || [ "$form $status" = 'check 65' ]; then say_status "$status"; fi
    exit "$status"
}

say_version() {
    commit=$(git -C "$here" describe --always --dirty 2>/dev/null) || commit=$(sentence no_commit)
    kit=$(rt version 2>/dev/null) || kit=$(sentence no_toolchain)
    printf 'Retzolva %s\n%s\n' "$commit" "$kit"
}

. "$here/door/messages"
without=''
[ "${1-}" != --unproved ] || { without=yes; shift; }
case $#:${1-} in
0:) help >&2; exit 64 ;;
1:--help | 1:help) help; exit ;;
1:--version) say_version; exit ;;
esac
if [ -n "$without" ]; then
    . "$here/door/building"
    unproved "$@"
elif ! is_fresh; then
    . "$here/door/building"
    build "$@"
fi
case " $* " in *" check "*) run_and_say "$@" ;; esac
[ ! -t 2 ] || run_and_say "$@"
exec "$program" "$@"
