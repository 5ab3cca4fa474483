# A depot in a folder: init, and the commands on its volumes

A folder that was made.

## a folder answers as a file does
    $ depot init archive
    made "archive"
    $ ls archive
    00000001.depot
    00000001.depot-wal
    $ depot list archive ann
    none
    $ depot script archive ann examples/documents.sieve
    stored
    $ depot deliver archive ann examples/invoice.eml
    1 part "Documents"
    2 message "INBOX"
    $ depot deliver archive bob examples/newsletter.eml
    1 message "INBOX"
    $ depot list archive ann
    1 part "Documents" "rechnung-2026-0417.pdf" application/pdf 9016
    2 message "INBOX" "" message/rfc822 19165
    $ depot since archive ann 1
    2 message "INBOX" "" message/rfc822 19165
    $ depot since archive ann 2
    none
    $ depot export archive ann 1 raw | sha256sum
    80f8df41adb207ae3eceb0df7cfcf10bdd1d48d1b19423f1f5a03d9b6f7db81e  -
    $ depot program archive ann stored
    wrote 129 octets
    $ depot compile examples/documents.sieve compiled && cmp compiled stored
    wrote 129 octets
    $ depot remove archive ann 1
    removed 1
    $ depot export archive ann 1 raw
    2> refused 40 NoSuchEntry
    [1]
    $ depot remove archive ann 1
    2> refused 40 NoSuchEntry
    [1]
    $ depot list archive ann
    2 message "INBOX" "" message/rfc822 19165
    $ depot code archive cat examples/keep.svbc
    stored
    $ depot migrate archive
    migrated 1
    $ depot migrate archive
    migrated 0
    $ ls archive
    00000001.depot
    00000001.depot-wal
    $ rm -r archive

## a slash after the name, and a link to the folder
    $ depot init archive/
    made "archive/"
    $ ln -s archive link
    $ depot deliver link ann examples/newsletter.eml
    1 message "INBOX"
    $ depot list archive/ ann
    1 message "INBOX" "" message/rfc822 66866
    $ rm -r archive

## refusals on a folder
    $ depot init archive
    made "archive"
    $ depot list archive Ann
    2> refused 44 UserName
    [1]
    $ depot deliver archive Ann examples/invoice.eml
    2> refused 44 UserName
    [1]
    $ depot deliver archive ann none
    2> refused 46 Read
    [1]
    $ echo 'keep; vacation;' > script
    $ depot script archive ann script
    2> refused 15 UnknownCommand at 2
    [1]
    $ depot program archive ann out
    2> refused 40 NoSuchEntry
    [1]
    $ depot export archive ann 1 raw
    2> refused 40 NoSuchEntry
    [1]
    $ depot remove archive ann 4294967295
    2> refused 40 NoSuchEntry
    [1]
    $ rm -r archive

## what takes one file
    $ depot init archive
    made "archive"
    $ depot deliver archive ann examples/newsletter.eml
    1 message "INBOX"
    $ echo list ann | depot batch archive
    2> refused 43 Database
    [1]
    $ depot scrub archive
    2> refused 43 Database
    [1]
    $ depot catalog archive ann
    2> refused 43 Database
    [1]
    $ depot inspect archive/00000001.depot | tail -n 1
    contents 1 octets 66866
    $ echo list ann | depot batch archive/00000001.depot
    1 message "INBOX" "" message/rfc822 66866
    = 0
    $ rm -r archive

## inspect reports each volume, and how many there are
    $ depot init archive
    made "archive"
    $ depot deliver archive ann examples/newsletter.eml
    1 message "INBOX"
    $ rm -f archive/*-wal
    $ depot inspect archive
    volume "archive/00000001.depot"
    depot
    no log
    user "ann" last 1 entries 1 octets 66866 program none
    contents 1 octets 66866
    volumes 1
    $ : > archive/00000002.depot
    $ depot inspect archive | tail -n 2
    contents 1 octets 66866
    volumes 1
    $ depot deliver archive ann examples/invoice.eml
    2 message "INBOX"
    $ depot inspect archive/ | grep -v log
    volume "archive//00000001.depot"
    depot
    user "ann" last 1 entries 1 octets 66866 program none
    contents 1 octets 66866
    volume "archive//00000002.depot"
    depot
    user "ann" last 2 entries 1 octets 19165 program none
    contents 1 octets 19165
    volumes 2
    $ depot inspect archive > /dev/full
    2> refused 45 Write
    [1]
    $ rm -r archive

## inspect names the first volume that is none
    $ depot init archive
    made "archive"
    $ cp archive/00000001.depot archive/00000003.depot
    $ depot list archive ann
    2> refused 43 Database
    [1]
    $ depot inspect archive | tail -n 2
    volume "archive/00000002.depot"
    no depot: there is no such file
    $ ln -s 00000001.depot archive/00000002.depot
    $ depot inspect archive | tail -n 2
    volume "archive/00000002.depot"
    no depot: it is no regular file
    $ rm archive/00000002.depot && ln archive/00000001.depot archive/00000002.depot
    $ depot inspect archive
    volume "archive/00000001.depot"
    no depot: it has a second name
    [1]
    $ rm archive/00000002.depot && echo text > archive/00000002.depot
    $ depot inspect archive | tail -n 2
    volume "archive/00000002.depot"
    no depot: it is no database, or it is damaged
    $ rm -r archive && mkdir archive
    $ depot inspect archive
    no depot: it is a directory
    [1]
    $ rm -r archive

## a program is not written over the newest volume
    $ depot init archive
    made "archive"
    $ depot script archive ann examples/documents.sieve
    stored
    $ depot program archive ann archive/00000001.depot
    2> refused 45 Write
    [1]
    $ depot program archive ann archive/00000001.depot-wal
    2> refused 45 Write
    [1]
    $ depot program archive ann archive/00000001.svbc
    wrote 129 octets
    $ depot list archive ann
    none
    $ rm -r archive

What init refuses.

## a folder that is there
    $ mkdir empty
    $ depot init empty
    made "empty"
    $ depot init empty
    2> refused 43 Database
    [1]
    $ depot list empty ann
    none
    $ mkdir full && : > full/notes
    $ depot init full
    2> refused 43 Database
    [1]
    $ ls full
    notes
    $ depot list full ann
    2> refused 43 Database
    [1]
    $ depot deliver full ann examples/invoice.eml
    2> refused 43 Database
    [1]
    $ ls full
    notes
    $ rm -r empty full

## what is no folder, or can't be made
    $ : > file
    $ depot init file
    2> refused 43 Database
    [1]
    $ ln -s nowhere link
    $ depot init link
    2> refused 43 Database
    [1]
    $ depot init none/archive
    2> refused 43 Database
    [1]
    $ depot init ''
    2> refused 43 Database
    [1]
    $ [ ! -e none ]

## a name is printed between quotes
    $ depot init 'a "b"'
    made "a \22b\22"
    $ depot list 'a "b"' ann
    none
    $ rm -r 'a "b"'

## a folder that was made, and whose name could not be written
    $ depot init archive > /dev/full
    2> refused 45 Write
    [1]
    $ depot list archive ann
    none
    $ rm -r archive

Several volumes.

## the next volume begins when the newest has 8 MiB
    $ for n in 1 2 3 4; do { printf 'Subject: %s\n\n' $n; head -c 4200000 /dev/zero | tr '\0' '\n'; } > mail$n; done
    $ echo 'require "fileinto"; fileinto "all";' > script
    $ : > empty
    $ depot init archive
    made "archive"
    $ depot script archive ann script
    stored
    $ depot deliver archive bob empty
    1 message "INBOX"
    $ for n in 1 2; do depot deliver archive ann mail$n; done
    1 message "all"
    2 message "all"
    $ ls archive
    00000001.depot
    00000001.depot-wal
    $ depot deliver archive ann mail3
    3 message "all"
    $ ls archive
    00000001.depot
    00000001.depot-wal
    00000002.depot
    00000002.depot-wal
    $ depot deliver archive bob empty
    2 message "INBOX"
    $ depot list archive ann
    1 message "all" "" message/rfc822 4200012
    2 message "all" "" message/rfc822 4200012
    3 message "all" "" message/rfc822 4200012
    $ depot since archive ann 1
    2 message "all" "" message/rfc822 4200012
    3 message "all" "" message/rfc822 4200012
    $ depot since archive ann 2
    3 message "all" "" message/rfc822 4200012
    $ depot since archive ann 3
    none
    $ depot list archive bob
    1 message "INBOX" "" message/rfc822 0
    2 message "INBOX" "" message/rfc822 0
    $ for n in 1 2 3; do depot export archive ann $n raw | cmp - mail$n; done
    $ depot list archive/00000001.depot ann
    1 message "all" "" message/rfc822 4200012
    2 message "all" "" message/rfc822 4200012
    $ depot list archive/00000002.depot ann
    3 message "all" "" message/rfc822 4200012
    $ depot compile script compiled > told && depot program archive ann stored | cmp - told && cmp compiled stored
    $ depot remove archive ann 1
    removed 1
    $ depot remove archive ann 3
    removed 3
    $ depot deliver archive ann mail4
    4 message "all"
    $ depot list archive ann
    2 message "all" "" message/rfc822 4200012
    4 message "all" "" message/rfc822 4200012
    $ depot export archive ann 3 raw
    2> refused 40 NoSuchEntry
    [1]
    $ depot export archive ann 4 raw | cmp - mail4
    $ depot export archive ann 5 raw
    2> refused 40 NoSuchEntry
    [1]
    $ rm mail1 mail2 mail3 mail4
    $ rm -r archive

## deliveries side by side begin one volume
    $ for n in 1 2; do { printf 'Subject: %s\n\n' $n; head -c 4200000 /dev/zero | tr '\0' '\n'; } > mail$n; done
    $ depot init archive
    made "archive"
    $ for n in 1 2; do depot deliver archive ann mail$n; done
    1 message "INBOX"
    2 message "INBOX"
    $ { for n in 1 2 3 4 5 6; do depot deliver archive ann examples/newsletter.eml & done; wait; } | sort -n
    3 message "INBOX"
    4 message "INBOX"
    5 message "INBOX"
    6 message "INBOX"
    7 message "INBOX"
    8 message "INBOX"
    $ ls archive/*.depot
    archive/00000001.depot
    archive/00000002.depot
    $ depot list archive/00000002.depot ann | wc -l
    6
    $ rm mail1 mail2
    $ rm -r archive

## the oldest volume is removed
    $ depot init archive
    made "archive"
    $ depot script archive ann examples/documents.sieve
    stored
    $ depot deliver archive ann examples/invoice.eml
    1 part "Documents"
    2 message "INBOX"
    $ : > archive/00000002.depot
    $ depot deliver archive ann examples/ticket.eml
    3 part "Documents"
    4 message "INBOX"
    $ rm archive/00000001.depot archive/00000001.depot-wal
    $ depot list archive ann
    3 part "Documents" "contract 2025.pdf" application/pdf 508
    4 message "INBOX" "" message/rfc822 3678
    $ depot export archive ann 1 raw
    2> refused 40 NoSuchEntry
    [1]
    $ depot remove archive ann 2
    2> refused 40 NoSuchEntry
    [1]
    $ depot since archive ann 0
    3 part "Documents" "contract 2025.pdf" application/pdf 508
    4 message "INBOX" "" message/rfc822 3678
    $ depot deliver archive ann examples/newsletter.eml
    5 message "INBOX"
    $ ls archive
    00000002.depot
    00000002.depot-wal
    $ rm -r archive

## many commands on many volumes answer as a plain model does
    $ "$TOP/cases/volume_history" depot
    150 commands and two lists after each, 0 differ

A volume that was not finished.

## an empty file, as a crash leaves it, is finished by the next delivery
    $ depot init archive
    made "archive"
    $ depot script archive ann examples/documents.sieve
    stored
    $ depot deliver archive ann examples/invoice.eml
    1 part "Documents"
    2 message "INBOX"
    $ : > archive/00000002.depot
    $ depot list archive ann
    1 part "Documents" "rechnung-2026-0417.pdf" application/pdf 9016
    2 message "INBOX" "" message/rfc822 19165
    $ depot export archive ann 1 raw | sha256sum
    80f8df41adb207ae3eceb0df7cfcf10bdd1d48d1b19423f1f5a03d9b6f7db81e  -
    $ depot inspect archive/00000002.depot | grep -c user
    0
    [1]
    $ depot deliver archive ann examples/ticket.eml
    3 part "Documents"
    4 message "INBOX"
    $ depot inspect archive/00000002.depot | grep user
    user "ann" last 4 entries 2 octets 4186 program accepted version 2
    $ depot list archive/00000001.depot ann
    1 part "Documents" "rechnung-2026-0417.pdf" application/pdf 9016
    2 message "INBOX" "" message/rfc822 19165
    $ rm -r archive

## a volume with tables and without users is finished before a filter is read
    $ depot init archive
    made "archive"
    $ depot script archive ann examples/documents.sieve
    stored
    $ depot migrate archive/00000002.depot
    migrated 0
    $ depot program archive ann stored
    wrote 129 octets
    $ depot compile examples/documents.sieve compiled && cmp compiled stored
    wrote 129 octets
    $ depot inspect archive/00000002.depot | grep user
    user "ann" last 0 entries 0 octets 0 program accepted version 2
    $ rm -r archive

## a volume without users after one that has none
    $ depot init archive
    made "archive"
    $ : > archive/00000002.depot
    $ depot deliver archive ann examples/newsletter.eml
    1 message "INBOX"
    $ depot list archive/00000002.depot ann
    1 message "INBOX" "" message/rfc822 66866
    $ depot list archive/00000001.depot ann
    none
    $ rm -r archive

What is in a folder.

## other files are ignored
    $ depot init archive
    made "archive"
    $ (cd archive && touch notes 0000002.depot 000000002.depot +0000002.depot 00000002.Depot 00000002.depot.old 00000002depot ' 0000002.depot' && mkdir 2.depot)
    $ touch "archive/$(printf '0000000\342.depot')"
    $ depot deliver archive ann examples/newsletter.eml
    1 message "INBOX"
    $ depot list archive ann
    1 message "INBOX" "" message/rfc822 66866
    $ rm -r archive

## a volume that is missing between two others
    $ depot init archive
    made "archive"
    $ cp archive/00000001.depot archive/00000003.depot
    $ depot list archive ann
    2> refused 43 Database
    [1]
    $ depot deliver archive ann examples/invoice.eml
    2> refused 43 Database
    [1]
    $ depot export archive ann 1 raw
    2> refused 43 Database
    [1]
    $ depot program archive ann out
    2> refused 43 Database
    [1]
    $ mv archive/00000003.depot archive/00000002.depot
    $ depot list archive ann
    none
    $ rm -r archive

## a volume that is no regular file with one name
    $ depot init archive
    made "archive"
    $ depot list mail.depot ann
    none
    $ ln -s ../mail.depot archive/00000002.depot
    $ depot list archive ann
    2> refused 43 Database
    [1]
    $ depot deliver archive ann examples/invoice.eml
    2> refused 43 Database
    [1]
    $ rm archive/00000002.depot && mkdir archive/00000002.depot
    $ depot list archive ann
    2> refused 43 Database
    [1]
    $ rmdir archive/00000002.depot && ln archive/00000001.depot second
    $ depot list archive ann
    2> refused 43 Database
    [1]
    $ rm second
    $ depot list archive ann
    none
    $ rm -r archive

## an earlier volume that is damaged
    $ depot init archive
    made "archive"
    $ depot deliver archive ann examples/newsletter.eml
    1 message "INBOX"
    $ : > archive/00000002.depot
    $ depot deliver archive ann examples/newsletter.eml
    2 message "INBOX"
    $ echo 'no database' > archive/00000001.depot
    $ depot list archive ann
    2> refused 43 Database
    [1]
    $ depot export archive ann 2 raw
    2> refused 43 Database
    [1]
    $ depot deliver archive ann examples/newsletter.eml
    3 message "INBOX"
    $ depot list archive/00000002.depot ann
    2 message "INBOX" "" message/rfc822 66866
    3 message "INBOX" "" message/rfc822 66866
    $ rm -r archive

## a newest volume that is damaged
    $ depot init archive
    made "archive"
    $ depot deliver archive ann examples/newsletter.eml
    1 message "INBOX"
    $ printf '%65536s' '' > archive/00000002.depot
    $ depot deliver archive ann examples/newsletter.eml
    2> refused 43 Database
    [1]
    $ depot list archive ann
    2> refused 43 Database
    [1]
    $ rm archive/00000002.depot*
    $ depot deliver archive ann examples/newsletter.eml
    2 message "INBOX"
    $ rm -r archive
