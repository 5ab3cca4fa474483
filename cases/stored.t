# What a depot keeps for its users: numbers, contents that several entries have, folders of any octets, many entries

## numbers are given once, and contents are any octets
    $ printf foobar > one; : > two; printf 'x\0'\''\377' > three
    $ depot deliver mail.depot ann one
    1 message "INBOX"
    $ depot deliver mail.depot ann two
    2 message "INBOX"
    $ depot remove mail.depot ann 2
    removed 2
    $ depot deliver mail.depot ann three
    3 message "INBOX"
    $ depot export mail.depot ann 1 raw | cmp - one && depot export mail.depot ann 3 raw | cmp - three
    $ depot export mail.depot ann 2 raw
    2> refused 40 NoSuchEntry
    [1]

## each user has numbers of his own
    $ printf foobar > mail
    $ for user in ann bob; do depot deliver mail.depot $user mail; done
    1 message "INBOX"
    1 message "INBOX"
    $ depot remove mail.depot ann 1 && depot export mail.depot bob 1 raw | cmp - mail
    removed 1
    $ depot remove mail.depot bob 1
    removed 1
    $ depot remove mail.depot bob 1
    2> refused 40 NoSuchEntry
    [1]
    $ depot deliver mail.depot bob mail
    2 message "INBOX"

## entries leave the program, and a program those of other users
    $ printf foobar > mail; : > empty
    $ depot deliver mail.depot ann mail
    1 message "INBOX"
    $ depot code mail.depot ann examples/keep.svbc && depot code mail.depot bob examples/documents.svbc
    stored
    stored
    $ depot code mail.depot ann examples/discard-large.svbc
    stored
    $ depot deliver mail.depot ann empty
    2 message "INBOX"
    $ depot remove mail.depot ann 1
    removed 1
    $ depot program mail.depot ann out && cmp out examples/discard-large.svbc
    wrote 55 octets
    $ depot program mail.depot bob out && cmp out examples/documents.svbc
    wrote 129 octets
    $ depot program mail.depot cat out
    2> refused 40 NoSuchEntry
    [1]

Three parts in one delivery. The filter is a listing, because no script has a zero octet.

## entries of two users that share contents, in folders of no name and of any octets
    $ cat > script << 'END'
    > require ["foreverypart", "mime", "vnd.depot"];
    > foreverypart {
    >     if header :mime :param "name" "Content-Type" "a" { store "N'\"F"; }
    >     elsif header :mime :param "name" "Content-Type" "b" { store "INBOX"; }
    >     elsif header :mime :type "Content-Type" "text" { store ""; }
    > }
    > discard;
    > END
    $ depot compile script out && depot disassemble out | sed "s/\"N'\\\\22F\"/\"\\\\00'\\\\22\\\\ff\"/" > listing && depot assemble listing program
    wrote 270 octets
    wrote 270 octets
    $ printf 'Content-Type: multipart/mixed; boundary=b\n\n--b\nContent-Type: text/plain\n\nsame\n' > mail
    $ printf -- '--b\nContent-Type: text/plain; name=a\n\nsame\n--b\nContent-Type: text/plain; name=b\n\nother\n--b--\n' >> mail
    $ for user in ann bob; do depot code mail.depot $user program; depot deliver mail.depot $user mail; done
    stored
    1 part ""
    2 part "\00'\22\ff"
    3 part "INBOX"
    stored
    1 part ""
    2 part "\00'\22\ff"
    3 part "INBOX"
    $ depot inspect mail.depot | tail -n 1
    contents 2 octets 9
    $ depot remove mail.depot ann 1; depot remove mail.depot bob 2; depot remove mail.depot ann 2
    removed 1
    removed 2
    removed 2
    $ for entry in 'bob 1' 'ann 3' 'bob 3'; do depot export mail.depot $entry raw; echo; done
    same
    other
    other
    $ depot export mail.depot ann 1 raw
    2> refused 40 NoSuchEntry
    [1]
    $ depot list mail.depot ann && depot list mail.depot bob && depot list mail.depot cat
    3 part "INBOX" "b" text/plain 5
    1 part "" "" text/plain 4
    3 part "INBOX" "b" text/plain 5
    none
    $ depot since mail.depot bob 1
    3 part "INBOX" "b" text/plain 5

## a list is ordered by numbers, whatever folders and names there are
    $ cat > script << 'END'
    > require ["foreverypart", "mime", "variables", "vnd.depot"];
    > foreverypart { if header :mime :matches "X-Folder" "*" { store "${1}"; } }
    > discard;
    > END
    $ for part in 'z first same' ' ' 'a third same'; do set -- $part; printf -- "--b\nX-Folder: $1\nContent-Type: text/plain; name=\"$2\"\n\n$3\n"; done > parts
    $ { printf 'Content-Type: multipart/mixed; boundary=b\n\n'; cat parts; echo '--b--'; } > mail
    $ for user in ann bob; do depot script mail.depot $user script; depot deliver mail.depot $user mail; done
    stored
    1 part "z"
    2 part ""
    3 part "a"
    stored
    1 part "z"
    2 part ""
    3 part "a"
    $ depot remove mail.depot ann 2
    removed 2
    $ depot list mail.depot ann
    1 part "z" "first" text/plain 4
    3 part "a" "third" text/plain 4
    $ depot list mail.depot bob
    1 part "z" "first" text/plain 4
    2 part "" "" text/plain 0
    3 part "a" "third" text/plain 4
    $ depot list mail.depot cat
    none

The last numbers, of which three, then one, are given.

## three entries where two numbers are left
Only if: python3 -c 'import sqlite3' # there is no sqlite3 for python3
    $ echo 'require ["foreverypart", "vnd.depot"]; foreverypart { store "P"; } discard;' > script
    $ depot script mail.depot dan script
    stored
    $ "$TOP/cases/laid" mail.depot "UPDATE users SET last = 4294967293" && depot program mail.depot dan before
    wrote 66 octets
    $ printf 'Content-Type: multipart/mixed; boundary=b\n\n--b\n\n2\n--b\n\n3\n--b--\n' > three; printf '\n1' > one; printf '\n2' > two
    $ depot deliver mail.depot dan three
    2> refused 41 NumberFull
    [1]
    $ depot deliver mail.depot dan one && depot deliver mail.depot dan two
    4294967294 part "P"
    4294967295 part "P"
    $ depot deliver mail.depot dan one
    2> refused 41 NumberFull
    [1]
    $ depot deliver mail.depot ann one
    1 message "INBOX"
    $ depot export mail.depot dan 4294967295 raw && echo && depot program mail.depot dan after && cmp before after
    2
    wrote 66 octets
    $ depot since mail.depot dan 4294967294
    4294967295 part "P" "" text/plain 1
    $ depot since mail.depot dan 4294967295
    none

## other octets under a digest: none of a delivery is filed, and once they are removed all is
Only if: python3 -c 'import sqlite3' # there is no sqlite3 for python3
    $ echo 'require ["foreverypart", "mime", "vnd.depot"]; foreverypart { if not header :mime :type "Content-Type" "multipart" { store "P"; } } discard;' > script
    $ depot script mail.depot ann script && printf foobar > foobar && depot deliver mail.depot bob foobar
    stored
    1 message "INBOX"
    $ "$TOP/cases/laid" mail.depot "UPDATE contents SET octets = x'666f6f62617a'"
    $ depot export mail.depot bob 1 raw
    2> refused 43 Database
    [1]
    $ printf 'Content-Type: multipart/mixed; boundary=b\n\n--b\n\nfirst\n--b\n\nfoobar\n--b--\n' > both; printf '\nfirst' > first; printf '\nfoobar' > second
    $ depot deliver mail.depot ann both
    2> refused 42 Collision
    [1]
    $ depot export mail.depot ann 1 raw
    2> refused 40 NoSuchEntry
    [1]
    $ depot deliver mail.depot ann first
    1 part "P"
    $ depot remove mail.depot bob 1
    removed 1
    $ depot deliver mail.depot ann second && depot export mail.depot ann 2 raw
    2 part "P"
    foobar
    [no line break]

Many entries, and a large one.

## twelve thousand entries of two users, each with a content of its own, numbered from 0
    $ echo 'require ["foreverypart", "mime", "vnd.depot"]; foreverypart { if header :mime :type "Content-Type" "text" { store "P"; } } discard;' > script
    $ for first in 0 4095 8190; do awk -v first=$first 'BEGIN { print "Content-Type: multipart/mixed; boundary=b\n"
    >     for (n = first; n < first + 4095; n++) printf "--b\nContent-Type: text/plain\n\n%08d\n", n; print "--b--" }' > mail.$first; done
    $ for user in ann bob; do depot script mail.depot $user script; for first in 0 4095 8190; do depot deliver mail.depot $user mail.$first | sed -n '1p; $p'; done; done
    stored
    1 part "P"
    4095 part "P"
    4096 part "P"
    8190 part "P"
    8191 part "P"
    12285 part "P"
    stored
    1 part "P"
    4095 part "P"
    4096 part "P"
    8190 part "P"
    8191 part "P"
    12285 part "P"
    $ depot export mail.depot ann 10000 raw && echo && depot remove mail.depot ann 5001 && depot export mail.depot bob 5001 raw && echo
    00009999
    removed 5001
    00005000
    $ rm mail.0 mail.4095 mail.8190
    $ depot inspect mail.depot | grep -v '^log'
    depot
    user "ann" last 12285 entries 12284 octets 98272 program accepted version 2
    user "bob" last 12285 entries 12285 octets 98280 program accepted version 2
    contents 12285 octets 98280

## a list of twelve thousand entries that one delivery made, each in a folder of its own
    $ cat > script << 'END'
    > require ["foreverypart", "mime", "variables", "vnd.depot"];
    > foreverypart { if header :mime :matches "X-Folder" "?*" { store "${1}${2}/a"; store "${1}${2}/b"; store "${1}${2}/c"; } }
    > discard;
    > END
    $ awk 'BEGIN { print "Content-Type: multipart/mixed; boundary=b\n"
    >     for (n = 0; n < 4095; n++) printf "--b\nX-Folder: %d\n\nx\n", n; print "--b--" }' > mail
    $ awk 'BEGIN { for (n = 0; n < 12285; n++) printf "%d part \"%d/%s\" \"\" text/plain 1\n", n + 1, int(n / 3), substr("abc", n % 3 + 1, 1) }' > wanted
    $ depot script mail.depot ann script && depot deliver mail.depot ann mail | tail -n 1
    stored
    12285 part "4094/c"
    $ depot list mail.depot ann | cmp - wanted
    $ depot since mail.depot ann 12000 > new; tail -n +12001 wanted | cmp - new && rm new

## a content of 60 MB outlives one of its two entries
    $ seq 10000000 | head -c 60000000 > mail
    $ depot deliver mail.depot ann mail && depot deliver mail.depot ann mail
    1 message "INBOX"
    2 message "INBOX"
    $ depot remove mail.depot ann 1 && depot export mail.depot ann 2 raw | cmp - mail
    removed 1
