# The tools of contrib for what is in a depot: to_maildir, refilter and refile

## a depot as a Maildir
    $ printf 'require "fileinto"; fileinto "Lists/De.bian"; fileinto "R\303\244ume"; fileinto "inbox"; keep;' > several
    $ printf 'Subject: one\n\none\n' > mail
    $ depot script mail.depot ann several
    stored
    $ depot deliver mail.depot ann mail
    1 message "Lists/De.bian"
    2 message "R\c3\a4ume"
    3 message "inbox"
    4 message "INBOX"
    $ depot script mail.depot ann examples/documents.sieve
    stored
    $ depot deliver mail.depot ann examples/invoice.eml
    5 part "Documents"
    6 message "INBOX"
    $ "$TOP/contrib/to_maildir" mail.depot ann Mail
    1 Mail/.Lists.De=2ebian/new/1.depot-ann
    2 Mail/.R&AOQ-ume/new/2.depot-ann
    3 Mail/.^69nbox/new/3.depot-ann
    4 Mail/new/4.depot-ann
    5 Mail-parts/Documents/5-rechnung-2026-0417.pdf
    6 Mail/new/6.depot-ann
    $ cmp mail Mail/new/4.depot-ann && cmp examples/invoice.eml Mail/new/6.depot-ann && cmp mail Mail/.Lists.De=2ebian/new/1.depot-ann
    $ depot export mail.depot ann 5 raw | cmp - Mail-parts/Documents/5-rechnung-2026-0417.pdf
    $ stat -c '%a' Mail/new/4.depot-ann Mail/cur
    600
    700

What a reader of mail did stays, and a second run adds what is new.

    $ mv Mail/new/4.depot-ann Mail/cur/4.depot-ann:2,S && rm Mail/new/6.depot-ann
    $ depot deliver mail.depot ann mail
    7 message "INBOX"
    $ "$TOP/contrib/to_maildir" mail.depot ann Mail
    7 Mail/new/7.depot-ann
    $ "$TOP/contrib/to_maildir" mail.depot ann Mail
    $ ls Mail/new Mail/cur
    Mail/cur:
    4.depot-ann:2,S
    
    Mail/new:
    7.depot-ann

A run that was killed before its last number was on the disk writes no mail twice, also of those that were read meanwhile.

    $ echo 3 > Mail/depot-ann && rm Mail-parts/*/* && "$TOP/contrib/to_maildir" mail.depot ann Mail
    4 Mail/new/4.depot-ann
    5 Mail-parts/Documents/5-rechnung-2026-0417.pdf
    6 Mail/new/6.depot-ann
    7 Mail/new/7.depot-ann
    $ ls Mail/new Mail/cur Mail/tmp Mail-parts/Documents && cat Mail/depot-ann
    Mail-parts/Documents:
    5-rechnung-2026-0417.pdf
    
    Mail/cur:
    4.depot-ann:2,S
    
    Mail/new:
    6.depot-ann
    7.depot-ann
    
    Mail/tmp:
    7 18
    $ rm -r Mail Mail-parts

## a depot whose first entry is a part
    $ depot script mail.depot ann examples/documents.sieve
    stored
    $ depot deliver mail.depot ann examples/invoice.eml
    1 part "Documents"
    2 message "INBOX"
    $ "$TOP/contrib/to_maildir" mail.depot ann Mail
    1 Mail-parts/Documents/1-rechnung-2026-0417.pdf
    2 Mail/new/2.depot-ann
    $ "$TOP/contrib/to_maildir" mail.depot ann Mail
    $ depot export mail.depot ann 1 raw | cmp - Mail-parts/Documents/1-rechnung-2026-0417.pdf
    $ cmp examples/invoice.eml Mail/new/2.depot-ann
    $ rm -r Mail Mail-parts

## another depot of the same user isn't taken for the one that was written
    $ printf 'Subject: one\n\none\n' > one && printf 'Subject: two\n\nlonger\n' > two
    $ depot deliver a.depot ann one && depot deliver b.depot ann two && depot deliver b.depot ann two
    1 message "INBOX"
    1 message "INBOX"
    2 message "INBOX"
    $ "$TOP/contrib/to_maildir" a.depot ann Mail
    1 Mail/new/1.depot-ann
    $ "$TOP/contrib/to_maildir" b.depot ann Mail; ls Mail/new
    2> to_maildir: Mail has entries up to 1 of another depot or of a newer copy: give each depot a Maildir of its own
    1.depot-ann
    $ "$TOP/contrib/to_maildir" b.depot ann Other
    1 Other/new/1.depot-ann
    2 Other/new/2.depot-ann

Nor is an older copy, in which the last number wasn't given.

    $ "$TOP/contrib/to_maildir" a.depot ann Other
    2> to_maildir: Other has entries up to 2 of another depot or of a newer copy: give each depot a Maildir of its own
    [65]
    $ depot remove b.depot ann 2 && "$TOP/contrib/to_maildir" b.depot ann Other
    removed 2
    $ rm -r Mail Other

## a user without entries makes no Maildir
    $ "$TOP/contrib/to_maildir" mail.depot ann Mail
    2> to_maildir: there is no file mail.depot
    [66]
    $ depot list mail.depot ann
    none
    $ "$TOP/contrib/to_maildir" mail.depot ann Mail
    $ test ! -e Mail

## a depot that isn't there makes no Maildir
    $ "$TOP/contrib/to_maildir" none.depot ann Mail
    2> to_maildir: there is no file none.depot
    [66]
    $ printf 'no database' > other
    $ "$TOP/contrib/to_maildir" other ann Mail
    2> to_maildir: list "ann": refused 43 Database: it is no database, or it is damaged
    [65]
    $ cat other && ls
    no databasedepot
    examples
    other
    other.lock

## a mail's file has the mail's own time
    $ for date in 'Mon, 4 Jan 2021 10:00:00 +0100' '4 Jan 21 09:00 GMT' 'Mon, 4 Jan 2999 10:00:00 +0100' 'next week' '' "$(printf '%0300d' 0)"; do
    >     printf 'Subject: a\nDATE:\n %s\nDate: Mon, 4 Jan 1999 10:00:00 +0100\n\nb\n' "$date" > mail && depot deliver mail.depot ann mail > said
    > done
    $ printf 'Subject: a\n\nDate: Mon, 4 Jan 2021 10:00:00 +0100\n' > mail && depot deliver mail.depot ann mail > said
    $ before=$(date +%s) && "$TOP/contrib/to_maildir" mail.depot ann Mail > said && for n in 1 2 3 4 5 6 7; do
    >     time=$(stat -c %Y Mail/new/$n.depot-ann) && [ "$time" -ge "$before" ] && [ "$time" -le "$(date +%s)" ] && echo "$n now" || echo "$n $time"
    > done
    1 1609750800
    2 1609750800
    3 now
    4 now
    5 now
    6 now
    7 now
    $ rm -r Mail

## folders whose names a Maildir can't have
    $ printf 'require "fileinto"; fileinto "a.b"; fileinto "a=2eb"; fileinto "a^2Eb"; fileinto "~x/~y"; fileinto "INBOX/x"; fileinto "/a"; fileinto "a//b"; fileinto "*%%"; fileinto "\377\n"; fileinto ".."; fileinto "a=^"; fileinto "x/new";' > several
    $ printf 'Subject: one\n\none\n' > mail
    $ depot script mail.depot ann several && depot deliver mail.depot ann mail > said
    stored
    $ "$TOP/contrib/to_maildir" mail.depot ann Mail
    1 Mail/.a=2eb/new/1.depot-ann
    2 Mail/.a^3D2eb/new/2.depot-ann
    3 Mail/.a^5E2Eb/new/3.depot-ann
    4 Mail/.=7ex.~y/new/4.depot-ann
    5 Mail/.^49NBOX.x/new/5.depot-ann
    6 Mail/.^2Fa/new/6.depot-ann
    7 Mail/.a^2F^2Fb/new/7.depot-ann
    8 Mail/.^2A^25/new/8.depot-ann
    9 Mail/.^FF^0A/new/9.depot-ann
    10 Mail/.=2e=2e/new/10.depot-ann
    11 Mail/.a=3d^/new/11.depot-ann
    12 Mail/.x.new/new/12.depot-ann

Two long names that begin alike are two folders, and each name is one that a file may have.

    $ long=$(printf '\303\244%.0s' $(seq 150)) && printf 'require "fileinto"; fileinto "%sa"; fileinto "%sb";' "$long" "$long" > several
    $ depot script mail.depot ann several && depot deliver mail.depot ann mail > said
    stored
    $ "$TOP/contrib/to_maildir" mail.depot ann Mail | cut -d ' ' -f 1
    13
    14
    $ "$TOP/contrib/to_maildir" mail.depot ann "$(printf 'M\377')"
    2> to_maildir: the name M\xff isn't UTF-8, which the program wants
    [64]
    $ ls -d Mail/.*/new/1[34].depot-ann | wc -l && ls -A Mail | awk 'length > 202'
    2
    $ rm -r Mail

## a Maildir that is written while mail comes in, and while hold serves the mailbox
Only if: command -v flock # there is no flock
    $ printf 'Subject: one\n\none\n' > mail
    $ for n in 1 2 3; do depot deliver mail.depot ann mail > said; done
    $ printf '#!/bin/sh\n[ "$1" != batch ] || flock -s -n mail.depot.lock echo free >> locks\nexec depot "$@"\n' > look && chmod +x look
    $ DEPOT=./look "$TOP/contrib/to_maildir" mail.depot ann Mail | wc -l && cat locks
    3
    free
    $ echo 'keep;' > script && DEPOT=./look "$TOP/contrib/refilter" mail.depot ann script | tail -n 1 && cat locks
    3 messages, and 0 parts stored apart
    free
    free
    free
    $ DEPOT=$PWD/depot "$TOP/contrib/hold" mail.depot 2> said & holder=$!; until "$TOP/contrib/ask" mail.depot deliver ann mail; do sleep 0.1; done
    > until [ -S mail.depot.hold ]; do sleep 0.1; done; "$TOP/contrib/ask" mail.depot deliver ann mail; depot list mail.depot ann; "$TOP/contrib/to_maildir" mail.depot ann Mail; kill $holder; wait
    4 message "INBOX"
    5 message "INBOX"
    4 Mail/new/4.depot-ann
    5 Mail/new/5.depot-ann
    2> refused 43 Database
    $ rm -r Mail mail.depot.held

## a Maildir whose writing is killed, and gone on with
    $ printf 'require ["fileinto", "foreverypart", "vnd.depot"]; foreverypart { store "P"; } fileinto "A"; keep;' > script
    $ depot script mail.depot ann script > said
    $ for n in 1 2 3 4; do printf 'Subject: %s\n\nThe mail %s.\n' $n $n > mail && depot deliver mail.depot ann mail > said; done
    $ "$TOP/contrib/to_maildir" mail.depot ann Whole > whole

The batch ends after so many lines, and the script is killed then.

    $ cat > killed <<'END'
    > #!/bin/sh
    > [ "$1" = batch ] || exec depot "$@"
    > n=0
    > while [ $n -lt "$LINES_DONE" ] && IFS= read -r line; do printf '%s\n' "$line"; n=$((n + 1)); done | depot "$@"
    > kill -KILL $PPID
    > END
    $ chmod +x killed
    $ for n in $(seq 1 12); do rm -rf Mail Mail-parts; LINES_DONE=$n DEPOT=./killed sh -c '"$TOP/contrib/to_maildir" mail.depot ann Mail' > said 2>&1; find Mail Mail-parts -type f ! -path '*/tmp/*' ! -path '*/.new/*' ! -name maildirfolder ! -name depot-ann -size -12c 2> said; "$TOP/contrib/to_maildir" mail.depot ann Mail | cut -d / -f 2- > again; cut -d / -f 2- whole | cmp - again; "$TOP/contrib/to_maildir" mail.depot ann Mail; diff -r Whole Mail; diff -r Whole-parts Mail-parts; done
    $ rm -r Whole Whole-parts Mail Mail-parts

## a Maildir of more entries than are written at a time
    $ printf 'Subject: one\n\nThe mail.\n' > mail && for n in $(seq 450); do echo deliver ann mail; done | depot batch mail.depot | grep -c message
    450
    $ cat > killed <<'END'
    > #!/bin/sh
    > n=0
    > while [ $n -lt 300 ] && IFS= read -r line; do printf '%s\n' "$line"; n=$((n + 1)); done | depot "$@"
    > kill -KILL $PPID
    > END
    $ chmod +x killed && DEPOT=./killed sh -c '"$TOP/contrib/to_maildir" mail.depot ann Mail > said' 2> told; ls Mail/new | wc -l; cat Mail/depot-ann; tail -n 1 said
    200
    200 24
    200 Mail/new/200.depot-ann
    $ "$TOP/contrib/to_maildir" mail.depot ann Mail > said && sed -n '1p;$p' said && "$TOP/contrib/to_maildir" mail.depot ann Mail
    201 Mail/new/201.depot-ann
    450 Mail/new/450.depot-ann
    $ ls Mail/new | wc -l; ls Mail/tmp; cat Mail/depot-ann
    450
    450 24
    $ rm -r Mail

## words that to_maildir, refilter and refile don't take
    $ printf 'Subject: one\n\none\n' > mail && depot deliver mail.depot ann mail > said && echo 'keep;' > script && mkdir folder && ln -s nowhere led
    $ printf 'x' > Full && mkdir Odd && printf 'many\n' > Odd/depot-ann 
    $ cat > t <<'END'
    > #!/bin/sh
    > "$TOP/contrib/$@" < /dev/null
    > echo "$?"
    > ls -R . | grep -v '^mail.depot.lock$' > "$TMPDIR/words-after" && cmp before "$TMPDIR/words-after"
    > END
    $ chmod +x t && : > before && ls -R . > "$TMPDIR/words-before" && mv "$TMPDIR/words-before" before
    $ ./t to_maildir mail.depot ann; ./t to_maildir mail.depot ann ''; ./t to_maildir -x ann Mail; ./t to_maildir mail.depot ann /; ./t to_maildir mail.depot ann ..
    64
    64
    64
    64
    64
    2> to_maildir: the words are to_maildir DEPOT USER FOLDER
    2> to_maildir: the words are to_maildir DEPOT USER FOLDER
    2> to_maildir: the words are to_maildir DEPOT USER FOLDER
    2> to_maildir: / has no name that parts beside it could have
    2> to_maildir: .. has no name that parts beside it could have
    $ ./t to_maildir mail.depot ../ann Mail; odd=$(printf 'a\nb\033[1m\377'); ./t to_maildir mail.depot "$odd" Mail; ./t to_maildir "$odd" ann Mail; ./t to_maildir folder ann Mail; ./t to_maildir led ann Mail
    67
    67
    66
    66
    66
    2> to_maildir: ../ann is no user's name: it has 1 to 64 of a to z, 0 to 9, dot, underscore and hyphen
    2> to_maildir: a\x0ab\x1b[1m\xff is no user's name: it has 1 to 64 of a to z, 0 to 9, dot, underscore and hyphen
    2> to_maildir: there is no file a\x0ab\x1b[1m\xff
    2> to_maildir: the folder folder has no volume
    2> to_maildir: led is no file
    $ ./t to_maildir mail.depot ann Full; ./t to_maildir mail.depot ann led; ./t to_maildir mail.depot ann Full/x
    73
    73
    73
    2> to_maildir: Full is no folder
    2> to_maildir: led is no folder
    2> to_maildir: the folder Full can't be made: File exists
    $ DEPOT=./none "$TOP/contrib/to_maildir" mail.depot ann Mail; echo "$?"; mkdir Odd/tmp Odd/new Odd/cur; ls -R . | grep -v "^mail.depot.lock$" > before; ./t to_maildir mail.depot ann Odd
    69
    65
    2> to_maildir: the program ./none can't be started: No such file or directory
    2> to_maildir: Odd/depot-ann has no number of an entry
    $ ./t refilter mail.depot ann; ./t refilter mail.depot ann script --aply new; ./t refilter mail.depot Ann script; ./t refilter none ann script; ./t refilter mail.depot ann none; ./t refilter mail.depot ann folder
    64
    64
    67
    66
    66
    66
    2> refilter: the words are refilter DEPOT USER SCRIPT [--apply NEW]
    2> refilter: the words are refilter DEPOT USER SCRIPT [--apply NEW]
    2> refilter: Ann is no user's name: it has 1 to 64 of a to z, 0 to 9, dot, underscore and hyphen
    2> refilter: there is no file none
    2> refilter: there is no file none
    2> refilter: folder is no file
    $ ./t refilter mail.depot ann script --apply led; ./t refilter mail.depot ann script --apply folder; ./t refilter mail.depot ann script --apply no/new; ./t refilter mail.depot ann mail --apply new
    73
    73
    73
    65
    2> refilter: led is there already
    2> refilter: folder is there already
    2> refilter: no/new can't be made: No such file or directory
    2> refilter: script "ann" "mail": refused 11 Lexical at 7
    $ ./t refile mail.depot ann script; ./t refile mail.depot Ann script journal; ./t refile mail.depot ann none journal; ./t refile mail.depot ann script folder; ./t refile folder ann script folder
    64
    67
    66
    66
    66
    2> refile: the words are refile DEPOT USER SCRIPT JOURNAL < LIST
    2> refile: Ann is no user's name: it has 1 to 64 of a to z, 0 to 9, dot, underscore and hyphen
    2> refile: there is no file none
    2> refile: folder is no file
    2> refile: folder is no file
    $ DEPOT=./none ./t refile new.depot ann script new; DEPOT=./mail ./t refile new.depot ann script new
    69
    69
    2> refile: there is no program ./none: name it by the variable DEPOT, or put depot on the PATH
    2> refile: there is no program ./mail: name it by the variable DEPOT, or put depot on the PATH
    $ rm -r Odd

## a filter that is none any more, and what each script says of it
    $ printf 'Subject: one\n\none\n' > mail && echo 'keep;' > script && depot script mail.depot ann script > said && depot deliver mail.depot ann mail
    1 message "INBOX"
    $ cat > shut <<'END'
    > #!/bin/sh
    > [ "$1" != inspect ] || { printf 'depot\nlog 41 octets\nuser "ann" last 1 entries 1 octets 17 program refused 25 Jump\ncontents 1 octets 17\n'; exit; }
    > printf 'refused 43 Database\n= 1\n'
    > END
    $ chmod +x shut && DEPOT=./shut "$TOP/contrib/to_maildir" mail.depot ann Mail
    2> to_maildir: list "ann": refused 43 Database: the filter of "ann" is refused 25 Jump
    [65]
    $ DEPOT=./shut "$TOP/contrib/refilter" mail.depot ann script
    2> refilter: script "ann" "script": refused 43 Database: the filter of "ann" is refused 25 Jump
    [65]

## a program that exports something else, and one that lists nothing
    $ printf 'Subject: one\n\none\n' > mail && echo 'keep;' > script && depot deliver mail.depot ann mail
    1 message "INBOX"
    $ printf '#!/bin/sh\nsed -u "s/ raw / base64 /" | depot "$@"\n' > other && printf '#!/bin/sh\necho = 0\n' > mute && chmod +x other mute
    $ DEPOT=./other "$TOP/contrib/to_maildir" mail.depot ann Mail
    2> to_maildir: entry 1 has 18 octets, and they weren't all exported
    [70]
    $ ls Mail/new Mail/cur | grep depot; DEPOT=./other "$TOP/contrib/refilter" mail.depot ann script --apply new
    2> refilter: entry 1 has 18 octets, and they weren't all exported
    [70]
    $ DEPOT=./mute "$TOP/contrib/to_maildir" mail.depot ann Mail
    2> to_maildir: the program lists what is no entry: b''
    [70]
    $ "$TOP/contrib/to_maildir" mail.depot ann Mail && cmp mail Mail/new/1.depot-ann && rm -r Mail
    1 Mail/new/1.depot-ann

## an entry that can't be exported, with a stand-in that refuses it and ends the batch
    $ for n in 1 2 3 4; do printf 'Subject: %s\n\n%s\n' $n $n > mail && depot deliver mail.depot ann mail > said; done && echo 'keep;' > script
    $ cat > altered <<'END'
    > #!/bin/sh
    > case "$1 $4 $5" in "export ann $ALONE") echo 'refused 43 Database' >&2; exit 1 ;; esac
    > [ "$1" != inspect ] || [ -z "$SAID" ] || { echo "$SAID"; exit 1; }
    > [ "$1" = batch ] || exec depot "$@"
    > while IFS= read -r line; do case $line in $REFUSED) : > now; break ;; esac; printf '%s\n' "$line"; done | depot "$@"
    > [ ! -e now ] || { rm now; printf 'refused 43 Database\n= 1\n'; exit 1; }
    > END
    $ chmod +x altered && REFUSED='export "ann" [24] *' DEPOT=./altered "$TOP/contrib/to_maildir" mail.depot ann Mail
    1 Mail/new/1.depot-ann
    3 Mail/new/3.depot-ann
    2> to_maildir: the content of entry 2 of ann was altered on the disk: restore it from a backup
    2> to_maildir: the content of entry 4 of ann was altered on the disk: restore it from a backup
    [65]

A second run names them again, and adds what is new; the file of the journal has them behind the last number.

    $ depot deliver mail.depot ann mail && REFUSED='export "ann" [24] *' DEPOT=./altered "$TOP/contrib/to_maildir" mail.depot ann Mail
    5 message "INBOX"
    5 Mail/new/5.depot-ann
    2> to_maildir: the content of entry 2 of ann was altered on the disk: restore it from a backup
    2> to_maildir: the content of entry 4 of ann was altered on the disk: restore it from a backup
    [65]
    $ cat Mail/depot-ann && ls Mail/tmp && rm Mail/new/* && depot remove mail.depot ann 4
    5 14
    2
    4
    removed 4
    $ "$TOP/contrib/to_maildir" mail.depot ann Mail; "$TOP/contrib/to_maildir" mail.depot ann Mail; cat Mail/depot-ann; ls Mail/new && rm -r Mail
    2 Mail/new/2.depot-ann
    5 14
    2.depot-ann
    $ REFUSED='export "ann" 2 *' DEPOT=./altered "$TOP/contrib/refilter" mail.depot ann script --apply new.depot; echo "$?"; depot list new.depot ann
    1 "INBOX": 1 message "INBOX"
    3 "INBOX": 2 message "INBOX"
    5 "INBOX": 3 message "INBOX"
    4 messages, and 0 parts stored apart; 1 altered on the disk, and not filed
    65
    1 message "INBOX" "" message/rfc822 14
    2 message "INBOX" "" message/rfc822 14
    3 message "INBOX" "" message/rfc822 14
    2> refilter: the content of entry 2 of ann was altered on the disk: restore it from a backup

Where nothing else can be exported, or `inspect` finds a fault, nothing is passed over.

    $ for script in 'to_maildir mail.depot ann Mail' 'refilter mail.depot ann script --apply other.depot'; do
    >     REFUSED='export *' DEPOT=./altered "$TOP"/contrib/$script 2> said; echo "$?"; sed 's/.*: refused/refused/' said
    >     REFUSED='export "ann" 1 *' SAID='no depot: the disk failed' DEPOT=./altered "$TOP"/contrib/$script 2> said; echo "$?"; sed 's/.*: refused/refused/' said
    >     REFUSED='export "ann" 1 *' SAID='depot' DEPOT=./altered "$TOP"/contrib/$script 2> said; echo "$?"; sed 's/.*: refused/refused/' said
    >     REFUSED='[ed]* "probe*' DEPOT=./altered "$TOP"/contrib/$script > passed; echo "$?"; rm -f other.depot
    > done; ls Mail/cur Mail/tmp; rm -r Mail
    75
    refused 43 Database: the disk of the temporary folder is full or failed
    65
    refused 43 Database: the disk failed
    75
    refused 43 Database: the disk of the temporary folder is full or failed
    0
    75
    refused 43 Database: the disk of the temporary folder is full or failed
    65
    refused 43 Database: the disk failed
    75
    refused 43 Database: the disk of the temporary folder is full or failed
    0
    Mail/cur:
    
    Mail/tmp:

What ask says of it depends on what can be the reason.

    $ REFUSED='export "ann" "2" *' DEPOT=./altered "$TOP/contrib/ask" mail.depot export ann 2 raw out
    2> refused 43 Database: inspect finds no fault, so this content was altered on the disk, or the disk failed
    [1]
    $ REFUSED='remove *' DEPOT=./altered "$TOP/contrib/ask" mail.depot remove ann 2
    2> refused 43 Database: inspect finds no fault, so the disk is full or failed
    [1]
    $ echo 'export ann 2 raw out' | REFUSED='export ann 2 *' DEPOT=./altered "$TOP/contrib/ask" mail.depot -
    refused 43 Database
    = 1
    2> ask: mail.depot: inspect finds no fault, so another process had it open, or the disk is full or failed, or the content of an export was altered on the disk
    [1]
    $ cat > served <<'END'
    > REFUSED='export "ann" "2" *' DEPOT=$PWD/altered "$TOP/contrib/hold" mail.depot 2> said & until [ -S mail.depot.hold ]; do sleep 0.1; done
    > for n in 1 2 3; do "$TOP/contrib/ask" mail.depot export ann $n raw out; done; kill $!; wait
    > END
    $ sh served
    exported 1
    exported 3
    2> refused 43 Database: inspect finds no fault, so this content was altered on the disk, or the disk failed
    $ rm mail.depot.held

## an archive of which an entry was altered after a run was killed
Only if: python3 -c 'import sqlite3' # there is no sqlite3 for python3
    $ mkdir archive && for n in 1 2 3; do printf 'Subject: %s\n\n%s\n' $n $n > archive/$n; done && ls archive/* > list && echo 'keep;' > script
    $ cat > alter <<'END'
    > import sqlite3, sys
    > file = sqlite3.connect(sys.argv[1])
    > file.execute("UPDATE contents SET octets = CAST(replace(octets, ?, ?) AS BLOB)", (sys.argv[2], sys.argv[3]))
    > file.commit()
    > file.close()
    > END
    $ printf '#!/bin/sh\ncase "$1 $4 $5" in "export ann 2") echo "refused 43 Database" >&2; exit 1 ;; esac\n[ "$1" = batch ] || exec depot "$@"\n' > altered
    $ cat >> altered <<'END'
    > while IFS= read -r line; do case $line in 'export "ann" 2 '*) : > now; break ;; esac; printf '%s\n' "$line"; done | depot "$@"
    > [ ! -e now ] || { rm now; printf 'refused 43 Database\n= 1\n'; exit 1; }
    > END
    $ chmod +x altered && "$TOP/contrib/refile" mail.depot ann script journal < /dev/null && printf 'next\t0\tarchive/%s\n' 1 2 3 >> journal
    0 mails: 0 filed before, 0 filed now, 0 refused
    $ for n in 1 2; do depot deliver mail.depot ann archive/$n; done && python3 alter mail.depot 'Subject: 2' 'Subject: 0'
    1 message "INBOX"
    2 message "INBOX"
    $ DEPOT=./altered "$TOP/contrib/refile" mail.depot ann script journal < list
    3 mails: 1 filed before, 1 filed now, 1 refused
    2> refile: archive/2: it was filed, and altered on the disk later: remove what it made, 2, and run this again
    2> refile: archive/2: refused 42 Collision
    [65]
    $ depot remove mail.depot ann 2 && "$TOP/contrib/refile" mail.depot ann script journal < list
    removed 2
    3 mails: 2 filed before, 1 filed now, 0 refused
    $ for n in 1 3 4; do depot export mail.depot ann $n raw | tail -n 1; done; tail -n +5 journal | tr '\t' ' '; rm -r archive
    1
    3
    2
    0 2 archive/1
    1 no answer 2 archive/2
    1 no answer 2 archive/3
    next 2 archive/2
    next 2 archive/3
    1 refused 42 Collision 2 archive/2
    0 3 archive/3
    next 3 archive/2
    0 4 archive/2

## contents of which a byte was changed in the file
Only if: python3 -c 'import sqlite3' # there is no sqlite3 for python3
    $ for n in 1 2 3; do printf 'Subject: %s\n\n%s\n' $n $n > mail && depot deliver mail.depot ann mail > said; done && depot deliver mail.depot ann examples/invoice.eml
    4 message "INBOX"
    $ cat > alter <<'END'
    > import sqlite3, sys
    > file = sqlite3.connect(sys.argv[1])
    > asked = "SELECT octets, digest FROM entries JOIN contents USING (digest) WHERE user = 'ann' AND number = ?"
    > octets, digest = file.execute(asked, (int(sys.argv[2]),)).fetchone()
    > octets = octets[:8] + bytes([octets[8] ^ 1]) + octets[9:]
    > file.execute("UPDATE contents SET octets = ? WHERE digest = ?", (octets, digest))
    > file.commit()
    > file.close()
    > END
    $ depot list mail.depot ann > before && for n in 2 4; do python3 alter mail.depot $n; done; depot list mail.depot ann | cmp - before; depot inspect mail.depot | sed -n 1p
    depot
    $ for n in 1 2 3 4; do depot export mail.depot ann $n raw | tail -n 1; done
    1
    3
    2> refused 43 Database
    2> refused 43 Database
    $ printf 'list ann\nexport ann 4 raw out\nlist ann\n' | depot batch mail.depot | tail -n 2; test ! -e out
    refused 43 Database
    = 1
    $ "$TOP/contrib/ask" mail.depot export ann 2 raw out
    2> refused 43 Database: inspect finds no fault, so this content was altered on the disk, or the disk failed
    [1]
    $ "$TOP/contrib/to_maildir" mail.depot ann Mail
    1 Mail/new/1.depot-ann
    3 Mail/new/3.depot-ann
    2> to_maildir: the content of entry 2 of ann was altered on the disk: restore it from a backup
    2> to_maildir: the content of entry 4 of ann was altered on the disk: restore it from a backup
    [65]
    $ echo 'keep;' > script && "$TOP/contrib/refilter" mail.depot ann script
    1 "INBOX": 1 message "INBOX"
    3 "INBOX": 2 message "INBOX"
    4 messages, and 0 parts stored apart; 2 altered on the disk, and not filed
    2> refilter: the content of entry 2 of ann was altered on the disk: restore it from a backup
    2> refilter: the content of entry 4 of ann was altered on the disk: restore it from a backup
    [65]
    $ mkdir boxes && "$TOP/contrib/ask" mail.depot copy boxes/ann.depot && DEPOT=depot "$TOP/contrib/each_mailbox" boxes maildir mails; echo "$?"; find mails -path '*/new/*' | sort; rm -r boxes mails
    copied
    0 done, 1 failed
    65
    mails/ann/new/1.depot-ann
    mails/ann/new/3.depot-ann
    2> each_mailbox: boxes/ann.depot: the content of entry 2 of ann was altered on the disk: restore it from a backup; the content of entry 4 of ann was altered on the disk: restore it from a backup

One is restored as it was, and the other one removed.

    $ python3 alter mail.depot 2 && depot remove mail.depot ann 4 && "$TOP/contrib/to_maildir" mail.depot ann Mail
    removed 4
    2 Mail/new/2.depot-ann
    $ "$TOP/contrib/to_maildir" mail.depot ann Mail && tail -n 1 Mail/new/2.depot-ann && rm -r Mail
    2

And after a run of refile was killed.

    $ : | "$TOP/contrib/refile" new.depot ann script journal && printf 'next\t0\tmail\n' >> journal && depot deliver new.depot ann mail && python3 alter new.depot 1
    0 mails: 0 filed before, 0 filed now, 0 refused
    1 message "INBOX"
    $ echo mail | "$TOP/contrib/refile" new.depot ann script journal
    1 mail: 0 filed before, 0 filed now, 1 refused
    2> refile: mail: it was filed, and altered on the disk later: remove what it made, 1, and run this again
    2> refile: mail: refused 42 Collision
    [65]
    $ depot remove new.depot ann 1 && echo mail | "$TOP/contrib/refile" new.depot ann script journal && depot export new.depot ann 2 raw | cmp - mail
    removed 1
    1 mail: 0 filed before, 1 filed now, 0 refused

## a mailbox file among mails is filed as one mail, and named
    $ printf 'Subject: a\n\nb\n' > one && { echo 'From ann Mon Jan  4 10:00:00 2021'; cat one; } > mbox && echo 'keep;' > script && mkfifo pipe
    $ printf 'one\nmbox\n' | "$TOP/contrib/refile" mail.depot ann script journal
    2 mails: 0 filed before, 2 filed now, 0 refused
    2> refile: mbox: it begins with a line `From `, so it may be a mailbox file of several mails; it is filed as one mail
    $ rm pipe

## another filter on what is there
    $ printf 'Subject: one\n\none\n' > one
    $ printf 'Subject: two\n\ntwo\n' > two
    $ printf 'require "fileinto"; if header "Subject" "two" { fileinto "Two"; }' > script
    $ depot deliver mail.depot ann one
    1 message "INBOX"
    $ depot deliver mail.depot ann two
    2 message "INBOX"
    $ depot list mail.depot ann > before
    $ "$TOP/contrib/refilter" mail.depot ann script
    1 "INBOX": 1 message "INBOX"
    2 "INBOX": 2 message "Two"
    2 messages, and 0 parts stored apart
    $ "$TOP/contrib/refilter" mail.depot ann script --apply new.depot
    1 "INBOX": 1 message "INBOX"
    2 "INBOX": 2 message "Two"
    2 messages, and 0 parts stored apart
    $ depot list new.depot ann
    1 message "INBOX" "" message/rfc822 18
    2 message "Two" "" message/rfc822 18
    $ depot list mail.depot ann | cmp - before
    $ "$TOP/contrib/refilter" mail.depot ann script --apply new.depot
    2> refilter: new.depot is there already
    [73]
    $ echo 'vacation;' > wrong
    $ "$TOP/contrib/refilter" mail.depot ann wrong
    2> refilter: script "ann" "wrong": refused 15 UnknownCommand at 0
    [65]
    $ "$TOP/contrib/refilter" mail.depot ann wrong --apply newer.depot
    2> refilter: script "ann" "wrong": refused 15 UnknownCommand at 0
    [65]

More messages than are filed at a time, each in its turn, and a script that discards some and files some twice.

    $ rm new.depot* && for n in $(seq 3 140); do printf 'Subject: %s\n\n%s\n' $n $n > one && echo deliver ann one; cp one "one-$n"; done | sed 's/one$//' > said
    $ for n in $(seq 3 140); do echo "deliver ann one-$n"; done | depot batch mail.depot | grep -c message
    138
    $ printf 'require "fileinto"; if header :contains "Subject" "7" { discard; } elsif header :contains "Subject" "9" { fileinto "Nine"; keep; }' > script
    $ "$TOP/contrib/refilter" mail.depot ann script --apply new.depot > said && "$TOP/contrib/refilter" mail.depot ann script | cmp - said
    $ sed -n '1p;7,9p;139,141p' said
    1 "INBOX": 1 message "INBOX"
    7 "INBOX": none
    8 "INBOX": 7 message "INBOX"
    9 "INBOX": 8 message "Nine", 9 message "INBOX"
    139 "INBOX": 136 message "Nine", 137 message "INBOX"
    140 "INBOX": 138 message "INBOX"
    140 messages, and 0 parts stored apart
    $ depot export new.depot ann 136 raw | tail -n 1 && depot export new.depot ann 138 raw | tail -n 1
    139
    140
    $ rm one-*

## an archive filtered anew, and gone on with
    $ printf 'require "fileinto"; if header "Subject" "two" { fileinto "Two"; }' > script
    $ mkdir archive
    $ for n in one two 'th"ree'; do printf 'Subject: %s\n\n%s\n' "$n" "$n" > "archive/$n mail"; done
    $ ls archive/* > list
    $ head -n 1 list | "$TOP/contrib/refile" new.depot ann script journal
    1 mail: 0 filed before, 1 filed now, 0 refused

As after a run that was killed when the next mail was filed, and while it wrote that.

    $ printf 'next\t1\tarchive/th"ree mail\nnext\t1\tarchive/two mail\n0\t2\tarch' >> journal
    $ depot deliver new.depot ann archive/'th"ree mail'
    2 message "INBOX"
    $ "$TOP/contrib/refile" new.depot ann script journal < list
    3 mails: 2 filed before, 1 filed now, 0 refused
    $ "$TOP/contrib/refile" new.depot ann script journal < list
    3 mails: 3 filed before, 0 filed now, 0 refused
    $ depot list new.depot ann
    1 message "INBOX" "" message/rfc822 18
    2 message "INBOX" "" message/rfc822 24
    3 message "Two" "" message/rfc822 18
    $ tr '\t' ' ' < journal
    begun 0 ann
    next 0 archive/one mail
    0 1 archive/one mail
    next 1 archive/th"ree mail
    next 1 archive/two mail
    0 2 archive/th"ree mail
    1 no answer 2 archive/two mail
    next 2 archive/two mail
    0 3 archive/two mail

As after one that was killed before the next mail was filed.

    $ cp archive/one\ mail later && printf 'next\t3\tlater\n' >> journal
    $ echo later | cat list - | "$TOP/contrib/refile" new.depot ann script journal
    4 mails: 3 filed before, 1 filed now, 0 refused
    $ tail -n 3 journal | tr '\t' ' '
    1 no answer 3 later
    next 3 later
    0 4 later

A mail that can't be read is refused, and tried again in the next run.

    $ echo none | "$TOP/contrib/refile" new.depot ann script journal
    1 mail: 0 filed before, 0 filed now, 1 refused
    2> refile: none: refused 46 Read
    [65]
    $ tail -n 1 journal | tr '\t' ' '
    1 refused 46 Read 4 none
    $ cp later none
    $ echo none | "$TOP/contrib/refile" new.depot ann script journal
    1 mail: 0 filed before, 1 filed now, 0 refused
    $ echo 'vacation;' > wrong
    $ "$TOP/contrib/refile" new.depot ann wrong journal < list
    2> refile: script "ann" "wrong": refused 15 UnknownCommand at 0
    [65]
    $ rm -r archive

## an archive for a user who has mail, with a new journal
    $ echo 'keep;' > script
    $ for n in 1 2 3; do printf 'Subject: %s\n\n' $n > m$n; depot deliver mail.depot ann m$n > said; done
    $ depot deliver mail.depot bob m1
    1 message "INBOX"
    $ printf 'm1\nm2\nm3\nm1\n' | "$TOP/contrib/refile" mail.depot ann script journal
    4 mails: 1 filed before, 3 filed now, 0 refused
    $ depot inspect mail.depot | grep user
    user "ann" last 6 entries 6 octets 72 program accepted version 2
    user "bob" last 1 entries 1 octets 12 program none
    $ head -n 1 journal | tr '\t' ' '
    begun 3 ann
    $ rm m1 m2 m3

## an archive whose names are odd
    $ echo 'keep;' > script
    $ for name in -f 'a "b"' "$(printf 'c\rd\te')" 'f\22'; do printf 'Subject: a\n\n' > "$name"; printf '%s\n' "$name" >> list; done
    $ "$TOP/contrib/refile" ./-x.depot ann script journal < list
    4 mails: 0 filed before, 4 filed now, 0 refused
    $ "$TOP/contrib/refile" -x.depot ann script journal < list
    4 mails: 4 filed before, 0 filed now, 0 refused
    $ depot list -- -x.depot ann | wc -l
    4
    $ printf 'Subject: a\n\n' > "$(printf 'g\377')" && printf -- '-f\ng\377\na "b"\n' | "$TOP/contrib/refile" new.depot ann script other
    3 mails: 0 filed before, 2 filed now, 1 refused
    2> refile: g\xff: the name isn't UTF-8
    [65]
    $ rm -- g*
    $ rm -- -f 'a "b"' c* 'f\22'

## an archive of more mails than go at a time, killed in the middle
    $ mkdir archive
    $ for n in $(seq 100 299); do printf 'Subject: %s\n\n%s\n' $n $n > archive/$n; done
    $ ls archive/* > list
    $ printf 'require "fileinto"; if header :contains "Subject" "7" { fileinto "Seven"; keep; } elsif header :contains "Subject" "5" { discard; }' > script
    $ "$TOP/contrib/refile" whole.depot ann script whole.journal < list
    200 mails: 0 filed before, 200 filed now, 0 refused
    $ cut -f 1,3 whole.journal | sed -n '65,67p;130p' | tr '\t' ' '
    next archive/163
    0 archive/100
    0 archive/101
    next archive/164

Of 64 mails that were begun so many were filed as the run was killed: of those without an answer none, some or all.

    $ head -n 65 whole.journal > begun
    $ for n in 0 1 7 40 64; do rm -f cut.depot; cp begun journal; "$TOP/contrib/refile" cut.depot ann script first < /dev/null > said; head -n $n list | sed 's/^/deliver ann /' | depot batch cut.depot > said; "$TOP/contrib/refile" cut.depot ann script journal < list; depot list cut.depot ann > cut; depot list whole.depot ann | cmp - cut; done
    200 mails: 0 filed before, 200 filed now, 0 refused
    200 mails: 1 filed before, 199 filed now, 0 refused
    200 mails: 6 filed before, 194 filed now, 0 refused
    200 mails: 36 filed before, 164 filed now, 0 refused
    200 mails: 50 filed before, 150 filed now, 0 refused

One that couldn't be read was passed over, and those after it were filed.

    $ rm cut.depot && cp begun journal && "$TOP/contrib/refile" cut.depot ann script first < /dev/null > said
    $ sed -n '1,3p;5,20p' list | sed 's/^/deliver ann /' | depot batch cut.depot > said
    $ "$TOP/contrib/refile" cut.depot ann script journal < list
    200 mails: 17 filed before, 183 filed now, 0 refused
    $ for n in $(depot list cut.depot ann | cut -d ' ' -f 1); do depot export cut.depot ann $n raw | tail -n 1; done | sort > cut
    $ for n in $(depot list whole.depot ann | cut -d ' ' -f 1); do depot export whole.depot ann $n raw | tail -n 1; done | sort | cmp - cut

Another's mail among them isn't taken for one of them.

    $ rm cut.depot && cp begun journal && "$TOP/contrib/refile" cut.depot ann script first < /dev/null > said
    $ depot deliver cut.depot ann list
    1 message "INBOX"
    $ "$TOP/contrib/refile" cut.depot ann script journal < list
    2> refile: the user has entries beyond 0 that are none of the mails which were begun
    [65]
    $ rm -r archive cut.depot whole.depot

## a mail that is refused among others
    $ mkdir archive
    $ for n in 1 2 4; do printf 'Subject: %s\n\n' $n > archive/$n; done
    $ ln -s "$FILES/too-large" archive/3
    $ ls archive/* > list
    $ echo 'keep;' > script
    $ "$TOP/contrib/refile" mail.depot ann script journal < list
    4 mails: 0 filed before, 3 filed now, 1 refused
    2> refile: archive/3: refused 2 MessageTooLarge
    [65]
    $ tail -n 4 journal | tr '\t' ' '
    0 1 archive/1
    0 2 archive/2
    1 refused 2 MessageTooLarge 2 archive/3
    0 3 archive/4
    $ rm -r archive

## a disk that is full ends the run, without a line of the mail
    $ printf 'Subject: a\n\n' > mail
    $ echo 'keep;' > script
    $ printf 'mail\nnext\n' > list && cp mail next
    $ cat > full <<'END'
    > #!/bin/sh
    > [ "$1" = batch ] || exec depot "$@"
    > for line in 1 2; do IFS= read -r line; printf '%s\n' "$line"; done | depot "$@"
    > printf 'refused 43 Database\n= 1\n'
    > exit 1
    > END
    $ chmod +x full
    $ DEPOT=./full "$TOP/contrib/refile" mail.depot ann script journal < list
    2> refile: next: refused 43 Database; run this again once the depot works
    [75]
    $ tr '\t' ' ' < journal
    begun 0 ann
    next 0 mail
    next 0 next
    0 1 mail
    $ "$TOP/contrib/refile" mail.depot ann script journal < list
    2 mails: 1 filed before, 1 filed now, 0 refused

## a journal that isn't one of this user, this depot or this version
    $ printf 'Subject: a\n\n' > mail
    $ echo 'keep;' > script
    $ echo mail | "$TOP/contrib/refile" mail.depot ann script journal
    1 mail: 0 filed before, 1 filed now, 0 refused
    $ echo mail | "$TOP/contrib/refile" mail.depot bob script journal
    2> refile: the journal journal is one of the user ann
    [65]
    $ echo mail | "$TOP/contrib/refile" other.depot ann script journal
    2> refile: the depot has given the numbers up to 0 and journal tells 1: it is another one, or an older copy
    [65]
    $ printf '0\t1\tmail\n' > old
    $ echo mail | "$TOP/contrib/refile" mail.depot ann script old
    2> refile: old is no journal, or one of an earlier version, which may call mails filed that aren't: begin with a new journal, and a depot without what was filed by this one
    [65]
    $ echo mail | "$TOP/contrib/refile" mail.depot ann journal script
    2> refile: script is no journal, or one of an earlier version, which may call mails filed that aren't: begin with a new journal, and a depot without what was filed by this one
    [65]
    $ printf 'keep' > cut
    $ echo mail | "$TOP/contrib/refile" mail.depot ann script cut
    2> refile: cut is no journal of this program
    [65]
    $ printf 'stray\n' >> journal
    $ echo mail | "$TOP/contrib/refile" mail.depot ann script journal
    2> refile: line 4 of journal is none of a journal
    [65]
    $ cat script cut
    keep;
    keep
    [no line break]
    $ echo mail | "$TOP/contrib/refile" script ann script new
    2> refile: the user's last number can't be read: no depot: it is no database, or it is damaged
    [65]
    $ depot list mail.depot ann
    1 message "INBOX" "" message/rfc822 12

## what the scripts stand on fails, a sample
Only if: command -v flock && command -v timeout && [ -d /proc/self ] # there is no flock, no timeout or no /proc
    $ "$TOP/bench/failing_commands" depot --sample > report || cat report
    $ grep -c ' 0 odd$' report
    1

## admit and the lines that split a file and write its entries, of docs/OPERATING.md, and scrub
Only if: command -v flock && command -v sqlite3 # there is no flock or no sqlite3
    $ sed -n '/# gives a user a filter, unless/,/^    }/s/^    //p' "$TOP/docs/OPERATING.md" > admit
    $ printf 'require ["foreverypart", "fileinto"];\nforeverypart { foreverypart { foreverypart { fileinto "Found"; } } }\n' > greedy
    $ PATH=$TOP/contrib:$PATH && . ./admit; depot list mail.depot ann; admit mail.depot ann examples/documents.sieve; admit mail.depot ann greedy; echo $?; admit mail.depot ann none; echo $?
    none
    wrote 129 octets
    stored
    wrote 94 octets
    1
    1
    2> entries 161701, more than 10000
    2> refused 46 Read
    $ depot deliver mail.depot ann examples/invoice.eml && depot deliver mail.depot bob examples/invoice.eml && mkdir boxes
    1 part "Documents"
    2 message "INBOX"
    1 message "INBOX"
    $ cp mail.depot all.depot && sed -n '/^    ($/,/all.depot.lock$/s/^    //p' "$TOP/docs/OPERATING.md" > split && sh split
    $ depot list boxes/ann.depot ann; depot list boxes/bob.depot bob; depot export boxes/bob.depot bob 1 raw | cmp - examples/invoice.eml; depot list boxes/bob.depot ann
    1 part "Documents" "rechnung-2026-0417.pdf" application/pdf 9016
    2 message "INBOX" "" message/rfc822 19165
    1 message "INBOX" "" message/rfc822 19165
    none
    $ depot deliver boxes/ann.depot ann examples/invoice.eml
    3 part "Documents"
    4 message "INBOX"
    $ "$TOP/contrib/scrub" all.depot
    $ sed -n '/^    mkdir out && sqlite3 /,/null$/s/^    //p' "$TOP/docs/OPERATING.md" > write && (umask 077 && sh write) && ls out
    ann-1.part
    ann-2.eml
    bob-1.eml
    $ cmp examples/invoice.eml out/bob-1.eml && depot export mail.depot ann 1 raw | cmp - out/ann-1.part
    $ : > filter && echo examples/invoice.eml | "$TOP/contrib/refile" filed.depot ann filter journal && "$TOP/contrib/refilter" mail.depot ann filter --apply new.depot
    1 mail: 0 filed before, 1 filed now, 0 refused
    2 "INBOX": 1 message "INBOX"
    1 message, and 1 part stored apart
    $ stat -c '%a %n' filed.depot journal new.depot
    600 filed.depot
    600 journal
    600 new.depot
    $ sed -i 's/%PDF-/%PDG-/' all.depot && cp all.depot before && "$TOP/contrib/scrub" all.depot
    contents 2
    octets 28181
    damaged 1
    1 "ann" "Documents"
    2> scrub: all.depot: refused 43 Database
    [65]
    $ cmp all.depot before && depot export all.depot ann 2 raw | cmp - examples/invoice.eml && rm before
    $ "$TOP/contrib/scrub" none; echo $?; test ! -e none; : > empty; "$TOP/contrib/scrub" empty; echo $?; "$TOP/contrib/scrub" all.depot out; echo $?
    66
    65
    64
    2> scrub: there is no file none
    2> scrub: empty: refused 43 Database: it is empty
    2> scrub: the words are scrub DEPOT
    $ DEPOT=none "$TOP/contrib/scrub" all.depot 2>&1 | grep -c 'there is no program none'
    1
    $ rm -r boxes ann.svbc out empty

## the lines that file an archive, of docs/OPERATING.md, and those that compare it with its originals
Only if: command -v flock && command -v sqlite3 && command -v sha256sum # there is no flock, no sqlite3 or no sha256sum
    $ mkdir -p in/ann-2014 in/ann-2015 in/ann.x && cp examples/invoice.eml in/ann-2014 && cp examples/newsletter.eml in/ann-2015 && : > filter.sieve
    $ cp examples/ticket.eml 'in/ann-2014/a "b\c.eml' && cp examples/ticket.eml in/ann-2014 && cp examples/ticket.eml in/ann.x
    $ sed -n '/^    mkdir -p boxes$/,/^$/s/^    //p' "$TOP/docs/OPERATING.md" > file && PATH="$TOP/contrib:$PATH" sh file | sort
    1 mail: 0 filed before, 1 filed now, 0 refused
    1 mail: 0 filed before, 1 filed now, 0 refused
    3 mails: 0 filed before, 3 filed now, 0 refused
    $ PATH="$TOP/contrib:$PATH" sh file | sort | tail -n 1
    3 mails: 3 filed before, 0 filed now, 0 refused
    $ for shard in shard.*; do user=${shard#shard.}; depot inspect "boxes/$shard.depot" | grep "^user \"${user%.*}\""; done
    user "ann-2014" last 3 entries 3 octets 26521 program accepted version 2
    user "ann-2015" last 1 entries 1 octets 66866 program accepted version 2
    user "ann.x" last 1 entries 1 octets 3678 program accepted version 2
    $ sed -n '/^    xargs -d/,/^$/s/^    //p' "$TOP/docs/OPERATING.md" > compare && sh compare
    $ echo more >> in/ann-2014/ticket.eml && sh compare | wc -l
    1
    $ rm -r in boxes shard.* sums

## a folder of volumes as a Maildir
    $ printf 'require ["fileinto", "vnd.depot", "foreverypart"]; foreverypart { store "Parts"; } fileinto "A/b"; keep;' > script
    $ depot init archive
    made "archive"
    $ depot script archive ann script && depot script mail.depot ann script
    stored
    stored
    $ for n in 1 2 3 4 5 6 7 8; do printf 'Subject: %s\nDate: Fri, 1 Mar 2019 10:00:00 +0000\n\n%s\n' $n $n > mail; for depot in archive mail.depot; do depot deliver $depot ann mail; done; : > archive/0000000$((n + 1)).depot; done > said
    $ cat > counting <<'END'
    > #!/bin/sh
    > [ "$1" != batch ] || echo "$1" >> batches
    > exec depot "$@"
    > END
    $ chmod +x counting && "$TOP/contrib/to_maildir" mail.depot ann Mail > said
    $ DEPOT=./counting "$TOP/contrib/to_maildir" archive ann New | sed 's/ New/ Mail/' | cmp - said; wc -l < said; wc -l < batches
    24
    8
    $ diff -r Mail New && diff -r Mail-parts New-parts && find New -name '[0-9]*.depot-ann' -newermt 2019-03-02 && cat New/depot-ann
    24 51

The second run looks at the volume of the last entry, and then at those with new entries.

    $ rm batches && DEPOT=./counting "$TOP/contrib/to_maildir" archive/ ann New; wc -l < batches
    1
    $ for n in 0 1; do depot deliver archive ann mail; : > archive/0000001$n.depot; done > said; ls archive/*.depot | tail -n 1
    archive/00000011.depot
    $ rm batches && DEPOT=./counting "$TOP/contrib/to_maildir" archive ann New; wc -l < batches
    25 New-parts/Parts/25-part
    26 New/.A.b/new/26.depot-ann
    27 New/new/27.depot-ann
    28 New-parts/Parts/28-part
    29 New/.A.b/new/29.depot-ann
    30 New/new/30.depot-ann
    3

A user without mail for many volumes costs no more, and neither does one without any.

    $ for n in 2 3; do depot deliver archive bob mail; : > archive/0000001$n.depot; done > said
    $ rm batches && DEPOT=./counting "$TOP/contrib/to_maildir" archive ann New; wc -l < batches
    1
    $ rm batches && DEPOT=./counting "$TOP/contrib/to_maildir" archive eve Eve; [ ! -e Eve ] && [ ! -e batches ]
    $ "$TOP/contrib/to_maildir" archive bob Bob
    1 Bob/new/1.depot-bob
    2 Bob/new/2.depot-bob

A content that was altered in an old volume, and one in a new one.

    $ depot deliver archive ann mail > said; : > archive/00000014.depot; sed -i 's/Subject: 2/Subject: X/' archive/00000002.depot; printf 'Subject: new\n\n' > mail; depot deliver archive ann mail > said; sed -i 's/Subject: new/Subject: old/' archive/00000014.depot
    $ "$TOP/contrib/to_maildir" archive ann Other > said; echo $?; wc -l < said; cat Other/depot-ann
    65
    32
    36 14
    5
    6
    35
    36
    2> to_maildir: the content of entry 5 of ann was altered on the disk: restore it from a backup
    2> to_maildir: the content of entry 6 of ann was altered on the disk: restore it from a backup
    2> to_maildir: the content of entry 35 of ann was altered on the disk: restore it from a backup
    2> to_maildir: the content of entry 36 of ann was altered on the disk: restore it from a backup
    $ "$TOP/contrib/to_maildir" archive ann Other; echo $?
    65
    2> to_maildir: the content of entry 5 of ann was altered on the disk: restore it from a backup
    2> to_maildir: the content of entry 6 of ann was altered on the disk: restore it from a backup
    2> to_maildir: the content of entry 35 of ann was altered on the disk: restore it from a backup
    2> to_maildir: the content of entry 36 of ann was altered on the disk: restore it from a backup
    $ sed -i 's/Subject: X/Subject: 2/' archive/00000002.depot; "$TOP/contrib/to_maildir" archive ann Other; echo $?; cat Other/depot-ann
    5 Other/.A.b/new/5.depot-ann
    6 Other/new/6.depot-ann
    65
    36 14
    35
    36
    2> to_maildir: the content of entry 35 of ann was altered on the disk: restore it from a backup
    2> to_maildir: the content of entry 36 of ann was altered on the disk: restore it from a backup
    $ depot remove archive ann 35; depot remove archive ann 36; "$TOP/contrib/to_maildir" archive ann Other; echo $?
    removed 35
    removed 36
    0

Another depot, or an older copy, and a folder without its oldest volumes.

    $ cp -R archive older && rm older/00000014.depot*; "$TOP/contrib/to_maildir" older ann Other; echo $?
    65
    2> to_maildir: Other has entries up to 36 of another depot or of a newer copy: give each depot a Maildir of its own
    $ rm archive/0000000?.depot*; depot deliver archive ann mail > said; "$TOP/contrib/to_maildir" archive ann Other; "$TOP/contrib/to_maildir" archive ann Last | wc -l
    37 Other-parts/Parts/37-part
    38 Other/.A.b/new/38.depot-ann
    39 Other/new/39.depot-ann
    10

The lock is waited for. A folder that isn't a depot is refused.

    $ flock archive.lock sh -c ': > locked; sleep 2; depot deliver archive ann mail' > said & until [ -e locked ]; do sleep 0.1; done; "$TOP/contrib/to_maildir" archive ann Other | wc -l; wait
    3
    $ mv archive/00000012.depot kept; "$TOP/contrib/to_maildir" archive ann Other; echo $?; ln -s ../kept archive/00000012.depot; "$TOP/contrib/to_maildir" archive ann Other; echo $?
    65
    65
    2> to_maildir: the folder archive has no volume 00000012.depot, which is before 00000014.depot
    2> to_maildir: the volume archive/00000012.depot is no regular file, or has a second name
    $ mkdir none; "$TOP/contrib/to_maildir" none ann None; echo $?; echo other > none/00000001.depot; "$TOP/contrib/to_maildir" none ann None; echo $?; [ ! -e None ]
    66
    65
    2> to_maildir: the folder none has no volume
    2> to_maildir: none/00000001.depot: no depot: it is no database, or it is damaged
    $ rm -r archive older none Mail* New* Other* Last* Bob* counting kept locked

## the tools without words say how they are called
    $ for tool in deliver hold ask each_mailbox test_deliver test_hold to_maildir refilter refile scrub into_volumes; do "$TOP/contrib/$tool" > /dev/null 2> said; echo "$tool $?"; grep -c . said > lines; [ -s lines ] || echo silent; done
    deliver 64
    hold 64
    ask 64
    each_mailbox 64
    test_deliver 2
    test_hold 2
    to_maildir 64
    refilter 64
    refile 64
    scrub 64
    into_volumes 64
