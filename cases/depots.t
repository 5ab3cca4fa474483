# Depots: script, code, deliver, list, since, export, remove and migrate

Filters.

## a refused script leaves the filter as it was
    $ echo 'discard;' > first
    $ echo 'keep; vacation;' > second
    $ depot script mail.depot ann first
    stored
    $ depot script mail.depot ann second
    2> refused 15 UnknownCommand at 2
    [1]
    $ depot script mail.depot An second
    2> refused 44 UserName
    [1]
    $ depot deliver mail.depot ann examples/newsletter.eml
    none

## a missing script is told before a wrong user name
    $ depot script mail.depot Ann none
    2> refused 46 Read
    [1]

## refused code leaves the filter as it was
    $ printf 'SVBC\1\0\0\0\0\0\0\0\0\0\2' > jump
    $ printf '\t\0\0\0\0\0\0\0' >> jump # JMP
    $ printf '\1\0\0\0\0\0\0\0' >> jump # HALT
    $ : > empty
    $ depot code mail.depot cat examples/keep.svbc
    stored
    $ depot code mail.depot cat jump
    2> refused 25 Jump at 0
    [1]
    $ depot deliver mail.depot cat empty
    1 message "INBOX"
    $ depot deliver mail.depot dan empty
    1 message "INBOX"
    $ depot list mail.depot cat
    1 message "INBOX" "" message/rfc822 0
    $ depot export mail.depot cat 1 raw

## a script is stored as its program
    $ depot script mail.depot ann examples/documents.sieve
    stored
    $ depot compile examples/documents.sieve compiled
    wrote 129 octets
    $ depot program mail.depot ann stored
    wrote 129 octets
    $ cmp compiled stored

Messages that are filed.

## the examples filed
    $ depot script mail.depot ann examples/documents.sieve
    stored
    $ depot script mail.depot bob examples/lists.sieve
    stored
    $ depot script mail.depot cat examples/tickets.sieve
    stored
    $ depot deliver mail.depot ann examples/invoice.eml
    1 part "Documents"
    2 message "INBOX"
    $ depot deliver mail.depot bob examples/newsletter.eml
    1 message "Lists/Weekly"
    $ depot deliver mail.depot cat examples/ticket.eml
    1 part "Tickets/4711/printer.log"
    2 part "Tickets/4711/contract 2025.pdf"
    3 message "INBOX"
    $ depot deliver mail.depot ann examples/forwarded.eml
    3 message "INBOX"
    $ depot list mail.depot cat
    1 part "Tickets/4711/printer.log" "printer.log" text/plain 880
    2 part "Tickets/4711/contract 2025.pdf" "contract 2025.pdf" application/pdf 508
    3 message "INBOX" "" message/rfc822 3678
    $ depot list mail.depot ann
    1 part "Documents" "rechnung-2026-0417.pdf" application/pdf 9016
    2 message "INBOX" "" message/rfc822 19165
    3 message "INBOX" "" message/rfc822 2640

## a message that is thrown away
    $ echo 'discard;' > script
    $ depot script mail.depot eve script
    stored
    $ depot deliver mail.depot eve examples/newsletter.eml
    none
    $ depot list mail.depot eve
    none

## one content that two users have
    $ echo 'require ["foreverypart", "mime", "vnd.depot"]; foreverypart { if header :mime :param "filename" "Content-Disposition" "a.txt" { store "att"; } } discard;' > script
    $ cat > message << 'END'
    > Content-Type: multipart/mixed; boundary=b
    >
    > --b
    > Content-Disposition: attachment; filename="a.txt"
    > Content-Transfer-Encoding: base64
    >
    > Zm9vYmFy
    > --b--
    > END
    $ depot script mail.depot ann script
    stored
    $ depot script mail.depot bob script
    stored
    $ depot deliver mail.depot ann message
    1 part "att"
    $ depot deliver mail.depot bob message
    1 part "att"
    $ depot list mail.depot ann
    1 part "att" "a.txt" text/plain 6
    $ depot remove mail.depot ann 1
    removed 1
    $ depot export mail.depot bob 1 base64-mime > text
    $ printf 'Zm9vYmFy\r\n' | cmp - text
    $ depot export mail.depot ann 1 base64-mime
    2> refused 40 NoSuchEntry
    [1]
    $ depot deliver mail.depot ann message
    2 part "att"
    $ depot list mail.depot ann
    2 part "att" "a.txt" text/plain 6
    $ depot deliver mail.depot Ann message
    2> refused 44 UserName
    [1]

## a full disk, on which no file may have more than 40 blocks of 512 octets
    $ printf foobar > message
    $ depot deliver mail.depot ann message
    1 message "INBOX"
    $ trap '' XFSZ; ulimit -f 40; depot deliver mail.depot ann "$FILES/most-parts"
    2> refused 43 Database
    [1]
    $ depot list mail.depot ann
    1 message "INBOX" "" message/rfc822 6
    $ depot deliver mail.depot ann "$FILES/most-parts"
    2 message "INBOX"

## a message of 20 MB, three times
    $ head -c 20000000 /dev/zero | tr '\0' '\n' > message
    $ echo 'require ["fileinto", "foreverypart", "vnd.depot"]; keep; fileinto "a"; foreverypart { store "b"; }' > script
    $ depot script mail.depot ann script
    stored
    $ depot deliver mail.depot ann message
    1 message "INBOX"
    2 message "a"
    3 part "b"
    $ depot list mail.depot ann
    1 message "INBOX" "" message/rfc822 20000000
    2 message "a" "" message/rfc822 20000000
    3 part "b" "" text/plain 19999999
    $ depot export mail.depot ann 2 base16 | wc -c
    40000000
    $ depot export mail.depot ann 2 raw | cmp - message

What is listed, and for whom.

## names and media types of entries
    $ echo 'require ["foreverypart", "vnd.depot"]; foreverypart { store "all"; } keep;' > script
    $ cat > message << 'END'
    > Content-Type: multipart/mixed; boundary=b
    >
    > --b
    > Content-Type: Text/HTML; name="second"
    > Content-Disposition: attachment; filename=""
    >
    > one
    > --b
    > Content-Type: text/plain; name="a \"b\""
    > Content-Disposition: (no disposition
    >
    > two
    > --b
    > Content-Disposition: attachment; filename="first"
    > Content-Disposition: attachment; filename="other"
    > Content-Type: image/PNG; name=x
    > Content-Transfer-Encoding: base64
    >
    > AAEC
    > --b
    > Content-Type: unreadable
    >
    > four
    > --b--
    > END
    $ depot script mail.depot ann script
    stored
    $ depot deliver mail.depot ann message
    1 part "all"
    2 part "all"
    3 part "all"
    4 part "all"
    5 part "all"
    6 message "INBOX"
    $ depot list mail.depot ann
    1 part "all" "" multipart/mixed 397
    2 part "all" "" text/html 3
    3 part "all" "a \22b\22" text/plain 3
    4 part "all" "first" image/png 3
    5 part "all" "" text/plain 4
    6 message "INBOX" "" message/rfc822 440
    $ depot export mail.depot ann 4 base16
    000102
    [no line break]

## what is listed after a number
    $ depot script mail.depot ann examples/documents.sieve
    stored
    $ for mail in invoice newsletter ticket; do depot deliver mail.depot ann "examples/$mail.eml"; done
    1 part "Documents"
    2 message "INBOX"
    3 message "INBOX"
    4 part "Documents"
    5 message "INBOX"
    $ depot since mail.depot ann 0
    1 part "Documents" "rechnung-2026-0417.pdf" application/pdf 9016
    2 message "INBOX" "" message/rfc822 19165
    3 message "INBOX" "" message/rfc822 66866
    4 part "Documents" "contract 2025.pdf" application/pdf 508
    5 message "INBOX" "" message/rfc822 3678
    $ depot since mail.depot ann 1
    2 message "INBOX" "" message/rfc822 19165
    3 message "INBOX" "" message/rfc822 66866
    4 part "Documents" "contract 2025.pdf" application/pdf 508
    5 message "INBOX" "" message/rfc822 3678
    $ depot since mail.depot ann +04
    5 message "INBOX" "" message/rfc822 3678
    $ depot since mail.depot ann 5
    none
    $ depot since mail.depot ann 4294967295
    none
    $ depot since mail.depot bob 0
    none

## what is listed after a number that is removed
    $ printf foobar > message
    $ for n in 1 2 3; do depot deliver mail.depot ann message; done
    1 message "INBOX"
    2 message "INBOX"
    3 message "INBOX"
    $ depot remove mail.depot ann 2
    removed 2
    $ depot since mail.depot ann 1
    3 message "INBOX" "" message/rfc822 6
    $ depot since mail.depot ann 2
    3 message "INBOX" "" message/rfc822 6
    $ depot remove mail.depot ann 3
    removed 3
    $ depot since mail.depot ann 0
    1 message "INBOX" "" message/rfc822 6
    $ depot since mail.depot ann 1
    none
    $ depot deliver mail.depot ann message
    4 message "INBOX"
    $ depot since mail.depot ann 3
    4 message "INBOX" "" message/rfc822 6

## numbers of one user after those of others
    $ : > empty
    $ for user in ann bob ann bob bob; do depot deliver mail.depot $user empty; done | wc -l
    5
    $ depot since mail.depot ann 1
    2 message "INBOX" "" message/rfc822 0
    $ depot since mail.depot bob 1
    2 message "INBOX" "" message/rfc822 0
    3 message "INBOX" "" message/rfc822 0

## a list after a number makes the depot where there is none, and changes none
    $ depot since mail.depot ann 7
    none
    $ depot deliver mail.depot ann examples/ticket.eml
    1 message "INBOX"
    $ depot inspect mail.depot > before && sha256sum mail.depot > sum
    $ depot since mail.depot ann 0
    1 message "INBOX" "" message/rfc822 3678
    $ sha256sum -c --quiet sum && depot inspect mail.depot | cmp - before && rm before sum

## a list after a number for what is no user's name
    $ depot since mail.depot a/b 0
    2> refused 44 UserName
    [1]
    $ depot since mail.depot '' 0
    2> refused 44 UserName
    [1]
    $ depot since mail.depot Ann 4294967295
    2> refused 44 UserName
    [1]

## every octet that a user name may have
    $ depot list mail.depot abcdefghijklmnopqrstuvwxyz0123456789._-
    none

## the longest user name
    $ depot list mail.depot xxxxxxxxxxxxxxxxxxxxxxxxxxxxxxxxxxxxxxxxxxxxxxxxxxxxxxxxxxxxxxxx
    none

## a user name that is too long
    $ depot list mail.depot xxxxxxxxxxxxxxxxxxxxxxxxxxxxxxxxxxxxxxxxxxxxxxxxxxxxxxxxxxxxxxxxx
    2> refused 44 UserName
    [1]

## an empty user name
    $ depot list mail.depot ''
    2> refused 44 UserName
    [1]

## an octet that no user name has
    $ depot list mail.depot a/b
    2> refused 44 UserName
    [1]

Entries by their numbers.

## export in every encoding
    $ printf foobar > message
    $ depot deliver mail.depot ann message
    1 message "INBOX"
    $ depot export mail.depot ann 1 raw
    foobar
    [no line break]
    $ depot export mail.depot ann 1 base64
    Zm9vYmFy
    [no line break]
    $ depot export mail.depot ann 1 base64-mime > text
    $ printf 'Zm9vYmFy\r\n' | cmp - text
    $ depot export mail.depot ann 1 base32
    MZXW6YTBOI======
    [no line break]
    $ depot export mail.depot ann 1 base32hex
    CPNMUOJ1E8======
    [no line break]
    $ depot export mail.depot ann 1 base16
    666F6F626172
    [no line break]
    $ depot export mail.depot ann 1 qp
    foobar
    [no line break]

## exports of lengths around those of pieces, in every encoding
    $ printf "$(awk 'BEGIN { for (n = 0; n < 9200; n++) printf "\\%03o", n * 7 % 251 }')" > mixed; wc -c < mixed
    9200
    $ number=0; for length in 0 1 4559 4560 4561 9119 9120 9121 9200; do
    >     number=$((number + 1)); head -c $length mixed > mail; depot deliver mail.depot ann mail
    >     for encoding in raw base64 base64-mime base32 base32hex base16 qp; do
    >         depot encode $encoding < mail > text; depot export mail.depot ann $number $encoding | cmp - text
    >     done
    > done
    1 message "INBOX"
    2 message "INBOX"
    3 message "INBOX"
    4 message "INBOX"
    5 message "INBOX"
    6 message "INBOX"
    7 message "INBOX"
    8 message "INBOX"
    9 message "INBOX"

## a number that is spelt otherwise
    $ printf foobar > message
    $ depot deliver mail.depot ann message
    1 message "INBOX"
    $ depot export mail.depot ann +01 raw
    foobar
    [no line break]

## no such entry
    $ depot export mail.depot ann 1 raw
    2> refused 40 NoSuchEntry
    [1]

## the number of a removed entry is not given again
    $ printf foobar > message
    $ depot deliver mail.depot ann message
    1 message "INBOX"
    $ depot deliver mail.depot ann message
    2 message "INBOX"
    $ depot remove mail.depot ann 2
    removed 2
    $ depot remove mail.depot ann 2
    2> refused 40 NoSuchEntry
    [1]
    $ depot deliver mail.depot ann message
    3 message "INBOX"
    $ depot list mail.depot ann
    1 message "INBOX" "" message/rfc822 6
    3 message "INBOX" "" message/rfc822 6

Files that are no depot.

## a file of something else
    $ printf '%65536s' '' > spaces
    $ depot list spaces ann
    2> refused 43 Database
    [1]

## a list after a number of what is no depot
    $ printf '%65536s' '' > spaces
    $ depot since spaces ann 0
    2> refused 43 Database
    [1]
    $ depot since none/mail.depot ann 0
    2> refused 43 Database
    [1]
    $ depot since none/mail.depot Ann 0
    2> refused 43 Database
    [1]

## a missing folder
    $ depot list none/mail.depot ann
    2> refused 43 Database
    [1]

## a missing folder is told before a wrong user name
    $ depot list none/mail.depot Ann
    2> refused 43 Database
    [1]

Migration.

## programs of version 1 get version 2
    $ printf 'SVBC\2\0\0\0\0\0\0\0\0\0\2' > keep
    $ printf '\23\0\0\0\0\0\0\0' >> keep # KEEP
    $ printf '\1\0\0\0\0\0\0\0' >> keep # HALT
    $ : > empty
    $ depot code mail.depot cat examples/keep.svbc
    stored
    $ depot code mail.depot eve keep
    stored
    $ depot migrate mail.depot
    migrated 1
    $ depot migrate mail.depot
    migrated 0
    $ depot deliver mail.depot cat empty
    1 message "INBOX"

## a migration makes the depot where there is none
    $ depot migrate mail.depot
    migrated 0
    $ depot list mail.depot ann
    none

## a migration of what is no depot
    $ echo 'no database' > mail.depot
    $ depot migrate mail.depot
    2> refused 43 Database
    [1]
