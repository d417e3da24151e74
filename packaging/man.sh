#!/bin/sh
# man.sh DRIVER VERSION: writes the driver's man page. Commands, options and exit status are what the driver's own `--help` and
# `help COMMAND` say, so that the page cannot fall behind them; packaging/shinglebar-port.1.in is the rest.
set -eu
driver=$1
version=$2
folder=$(dirname "$0")
name=shinglebar-port

made=$(mktemp -d)
trap 'rm -rf "$made"' EXIT

# text that roff takes as it stands
escaped() {
    sed -e 's/\\/\\e/g' -e 's/-/\\-/g' -e "s/'/\\\\(aq/g" -e 's/`/\\(ga/g' -e 's/^\./\\\&./'
}

# the part of a command's help with its options: the form of the command, words about it, options with their meanings
command_part() {
    awk -v name="$1" '
        function meaning(text) { sub(/^ +/, "", text); print text }
        NR == 1 {
            at = index($0, " : ")
            print ".SS " name
            print ".B " substr($0, 1, at - 1)
            print ".PP"
            print toupper(substr($0, at + 3, 1)) substr($0, at + 4)
            next
        }
        /^  \\-/ {
            line = $0
            sub(/^ +/, "", line)
            # the option and its value end at two blanks, or where there are none behind the second word
            at = match(line, /  +/)
            if (!at) { match(line, /^[^ ]+ [^ ]+/); at = RLENGTH + 1 }
            options = 1
            print ".TP"
            print ".B " substr(line, 1, at - 1)
            meaning(substr(line, at))
            next
        }
        options && /^   / { meaning($0); next }
        options { exit }
        NF == 0 { next }
        { print }'
}

# what stands below the options
values_part() {
    awk '/^  \\-/ { options = 1; next } options && /^   / { next } options { print }'
}

"$driver" --help >"$made/help"
: >"$made/commands"
: >"$made/values"
awk -v name="$name" '/^  / && $1 == name { print $2 }' "$made/help" >"$made/names"
while read -r command; do
    "$driver" help "$command" >"$made/one" </dev/null
    head -n 1 "$made/one" | grep -q "^$name $command .* : " ||
        { echo "man.sh: help $command is not in the form that is known here" >&2; exit 1; }
    escaped <"$made/one" >"$made/escaped"
    command_part "$command" <"$made/escaped" >>"$made/commands"
    values_part <"$made/escaped" >>"$made/values"
done <"$made/names"
# each paragraph once
awk -v RS= '!seen[$0]++ { print ".PP"; print }' "$made/values" >"$made/paragraphs"
escaped <"$made/help" | sed -n -e 's/^Exit status: //p' >"$made/status"
escaped <"$made/help" | sed -e 1d -e '/^ /d' -e '/^Exit status: /d' -e '/^$/d' >"$made/general"
for part in commands paragraphs status general; do
    [ -s "$made/$part" ] || { echo "man.sh: --help has no $part in the form that is known here" >&2; exit 1; }
done

sed -e "s/@VERSION@/$version/" \
    -e "/^@GENERAL@\$/{r $made/general
d
}" \
    -e "/^@COMMANDS@\$/{r $made/commands
d
}" \
    -e "/^@VALUES@\$/{r $made/paragraphs
d
}" \
    -e "/^@STATUS@\$/{r $made/status
d
}" "$folder/shinglebar-port.1.in"
