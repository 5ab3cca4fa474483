#!/bin/sh
# Saves the new mail of a user, and what the user's filter stored of it: attachments.sh DB USER FOLDER
#
# A mail becomes FOLDER/NUMBER/mail.eml, and each stored part of it FOLDER/NUMBER/ITS-NUMBER-ITS-NAME. The catalog has the mails that
# contain a part. A part belongs to the next new one after it, because the implicit keep files a mail after its parts, or, if any new
# part has such a mail only before it, to the last one before it, because then the filter files the mail first. A part without such a
# mail goes into FOLDER/unlinked. If two mails have the same part, and filters of both kinds delivered them, only what deliver prints
# decides (attachments.py). FOLDER/last has the number up to which all is saved, so a run that was broken off is repeated by the
# next one. Nothing is changed in the depot.
set -eu
[ $# = 3 ] || { echo 'the words are attachments.sh DB USER FOLDER' >&2; exit 2; }
db=$1 user=$2 folder=$3
# a command on a depot that isn't there would make it
[ -f "$db" ] || { echo "$db: there is no such file" >&2; exit 1; }
mkdir -p "$folder"
made=$(mktemp -d)
trap 'rm -rf "$made"' EXIT
last=0
[ ! -f "$folder/last" ] || last=$(cat "$folder/last")

# Runs a command under the lock that all others wait for.
ask() {
    flock "$db.lock" depot "$@"
}

ask since "$db" "$user" "$last" > "$made/new"
ask catalog "$db" "$user" "$last" > "$made/catalog"
sed -n 's/^\([0-9]*\) message .*/\1/p' "$made/new" > "$made/mails"
while read -r number; do
    mkdir -p "$folder/$number"
    ask export "$db" "$user" "$number" raw > "$folder/$number/mail.eml"
done < "$made/mails"

# each part with the mails that contain it; what a sender wrote can't look like a member, because its quotation marks are escaped
sed -n 's/.*"number":\([0-9]*\),"octets":[0-9]*,"of":\[\([^]]*\)\],"sha256".*/\1 \2/p' "$made/catalog" |
    sed 's/{"number":\([0-9]*\),"part":[0-9]*},*/\1 /g' > "$made/links"

# a name is what the sender wrote: it is cut, and other characters than these become underscores
sed -n 's/^\([0-9]*\) part "[^"]*" "\([^"]*\)" .*/\1 \2/p' "$made/new" > "$made/names"
while read -r number name; do
    echo "$number $number-$(printf %s "$name" | tr -c 'A-Za-z0-9.-' _ | tail -c 100)"
done < "$made/names" > "$made/stored"

# for each part its number, the folder of its mail, and its name there
awk '
    FILENAME == ARGV[1] { is_new[$1]; next }
    FILENAME == ARGV[2] {
        for (i = 2; i <= NF; i++)
            if (!($i in is_new)) continue
            else if ($i < $1) before[$1] = $i
            else if (!after[$1]) after[$1] = $i
        if (before[$1] && !after[$1]) first = 1
        next
    }
    { print $1, (first && before[$1]) ? before[$1] : after[$1] ? after[$1] : before[$1] ? before[$1] : "unlinked", $2 }
    ' "$made/mails" "$made/links" "$made/stored" > "$made/places"
while read -r number mail name; do
    mkdir -p "$folder/$mail"
    ask export "$db" "$user" "$number" raw > "$folder/$mail/$name"
done < "$made/places"

newest=$(sed -n '$s/ .*//p' "$made/new")
[ -z "$newest" ] || { echo "$newest" > "$folder/last.new" && mv "$folder/last.new" "$folder/last"; }
