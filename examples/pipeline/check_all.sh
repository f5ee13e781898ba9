#!/bin/sh
# Checks every script below the named folders: check_all.sh [--proved] [--junit FILE] [--sarif FILE] [--codequality FILE] FOLDER..
# A script is a file NAME.toml. Its certificate is beside it: NAME.json, certificate.json for script.toml, or NAME.certificate.json, which mgtool writes.
# For each script the answer is one line: the path, and the line of `mgcall check`. After a yes, two more files beside the script are used if they exist:
# - NAME.report (or report): the plan NAME.plan.toml (or plan.toml) is run. A report that differs from the stored one counts as a no.
# - NAME.scenarios.toml: `mgtool test` runs the scenarios. A scenario that fails counts as a no; what mgtool prints about it goes to standard error.
# The exit status is the highest of all, so 0 if all is well. A folder without a script, a script without its certificate, and a report without its plan
# count as 3, unreadable input. An answer that can't be written counts as 6. MGCALL and MGTOOL name the programs, if these aren't `mgcall` and `mgtool`.
# With an option that takes a file the answers are also written to it, by reports.py, which is in the folder of this script and needs Python 3.
# A line on standard error says whether the program is proved. With --proved, a program that isn't proved gives no answer, and the status is 69.
set -u
mgcall=${MGCALL:-mgcall}
mgtool=${MGTOOL:-mgtool}
usage='usage: check_all.sh [--proved] [--junit FILE] [--sarif FILE] [--codequality FILE] FOLDER..'
junit='' sarif='' codequality='' proved=''
worst=0 lost=''
answers=$(mktemp) || exit 6
trap 'rm -f "$answers"' EXIT

# Keeps the highest status.
keep() {
    if [ "$1" -gt "$worst" ]; then worst=$1; fi
}

# Prints an answer: what was asked, the status, the file that was asked about, what belongs to it, and the line.
tell() {
    keep "$2"
    printf '%s: %s\n' "$3" "$5" 2> /dev/null || lost=' standard output'
    printf '%s\n' "$@" >> "$answers" || lost="$lost $answers"
}

# Files as one input. Each first `echo` ends the last line of the file before it, if that has no end.
joined() {
    cat "$1" && shift && for file in "$@"; do echo && echo '%%' && cat "$file" || return; done
}

# Runs the plan of a script, if a report of it is kept, and compares.
compare() {
    if [ ! -e "$4" ]; then return; fi
    if [ ! -r "$3" ] || [ ! -r "$4" ]; then
        tell plan 3 "$3" "$4" "not there, or without $4"
        return
    fi
    told=$(joined "$1" "$2" "$3" | "$mgcall" run)
    status=$?
    if [ $status -ne 0 ]; then
        tell plan $status "$3" "$4" "$(printf '%s\n' "$told" | head -n 1)"
    elif [ "$told" = "$(cat "$4")" ]; then
        tell plan 0 "$3" "$4" "as $4"
    else
        place=$(printf '%s\n' "$told" | diff "$4" - | sed -n '1s/[^0-9].*//p')
        tell plan 1 "$3" "$4" "another report than $4, from line $place"
    fi
}

# Runs the scenarios of a script, if it has any. The line is the last one of `mgtool test`, with the place of the first failure; if no scenario was run,
# it is the first error.
try() {
    if [ ! -e "$3" ]; then return; fi
    told=$("$mgtool" test ${proved:+--proved} "$1" --certificate "$2" --scenarios "$3" 2>&1)
    status=$?
    line=$(printf '%s\n' "$told" | tail -n 1)
    if [ $status -ne 0 ]; then printf '%s\n' "$told" >&2; fi
    if [ $status -eq 1 ]; then
        place=$(printf '%s\n' "$told" | sed -n 's/.*\.scenarios\.toml:\([0-9]*\):[0-9]*: error: .*/\1/p' | head -n 1)
        line="$line, from line ${place:-1}"
    elif [ $status -ne 0 ]; then
        error=$(printf '%s\n' "$told" | sed -n 's/.*: error: //p' | head -n 1)
        line=${error:-$line}
    fi
    tell scenarios $status "$3" "$3" "$line"
}

# Checks a script, and after a yes runs its plan and its scenarios.
check() {
    name=${1%.toml}
    case $1 in
    */script.toml) front=${1%script.toml} certificate=${front}certificate.json plan=${front}plan.toml report=${front}report ;;
    *) certificate=$name.json plan=$name.plan.toml report=$name.report ;;
    esac
    if [ ! -e "$certificate" ] && [ -e "$name.certificate.json" ]; then certificate=$name.certificate.json; fi
    if [ ! -r "$1" ] || [ ! -r "$certificate" ]; then
        tell check 3 "$1" "$certificate" "not there, or without $certificate"
        return
    fi
    line=$(joined "$1" "$certificate" | "$mgcall" check)
    status=$?
    tell check $status "$1" "$certificate" "$line"
    if [ $status -ne 0 ]; then return; fi
    compare "$1" "$certificate" "$plan" "$report"
    try "$1" "$certificate" "$name.scenarios.toml"
}

# Says of the program whether it is proved. An installed program has a list of what was installed beside it, and a note if it isn't proved.
kind_of_program() {
    path=$(command -v "$mgcall") && path=$(readlink -f "$path") || { echo 'not there' && return; }
    library=$(dirname "$path")/../lib/mgcall
    case $path in
    *-not-proved) echo 'not proved' ;;
    */crates/mgcall/out/mgcall) echo proved ;;
    *) if [ -e "$library/not-proved" ]; then echo 'not proved'; elif [ -e "$library/installed" ]; then echo proved; else echo 'of unknown origin'; fi ;;
    esac
}

# Checks each script below a folder.
check_below() {
    scripts=$(find "$1" -name '*.toml' ! -name plan.toml ! -name '*.plan.toml' ! -name '*.scenarios.toml')
    if [ $? -ne 0 ] && [ -d "$1" ]; then tell folder 3 "$1" "$1" "not readable as a whole"; fi
    scripts=$(printf '%s\n' "$scripts" | LC_ALL=C sort)
    if [ -z "$scripts" ]; then tell folder 3 "$1" "$1" "no script"; fi
    while IFS= read -r script; do
        if [ -n "$script" ]; then check "$script"; fi
    done <<END
$scripts
END
}

refuse() {
    echo "$usage" >&2
    exit 2
}

while [ $# -gt 0 ]; do
    case $1 in
    --proved) proved=1 && shift && continue ;;
    --junit=* | --sarif=* | --codequality=*) value=${1#*=} ;;
    --junit | --sarif | --codequality)
        if [ $# -lt 2 ]; then refuse; fi
        value=$2
        ;;
    --) shift && break ;;
    -*) refuse ;;
    *) break ;;
    esac
    if [ -z "$value" ]; then refuse; fi
    case $1 in
    --junit*) junit=$value ;;
    --sarif*) sarif=$value ;;
    --codequality*) codequality=$value ;;
    esac
    case $1 in *=*) shift ;; *) shift 2 ;; esac
done
if [ $# -eq 0 ]; then refuse; fi
kind=$(kind_of_program)
echo "check_all.sh: $mgcall is $kind" >&2
if [ -n "$proved" ] && [ "$kind" != proved ]; then
    echo "check_all.sh: --proved takes a proved program alone: make prove proves mgcall, and make install installs it" >&2
    if [ "$kind" = 'not there' ]; then exit 127; fi
    exit 69
fi
for folder in "$@"; do
    case $folder in -*) folder=./$folder ;; esac
    check_below "$folder"
done
if [ -n "$junit$sarif$codequality" ]; then
    python3 "$(dirname "$0")/reports.py" --junit "$junit" --sarif "$sarif" --codequality "$codequality" < "$answers"
    keep $?
fi
if [ -n "$lost" ]; then
    echo "check_all.sh: answers could not be written:$lost" >&2
    keep 6
fi
exit "$worst"
