# Contents that the disk changed: scrub

## nothing is damaged
    $ printf 'Subject: a\n\nhello\n' > mail
    $ depot deliver mail.depot ann mail
    1 message "INBOX"
    $ depot deliver mail.depot bob mail
    1 message "INBOX"
    $ depot deliver mail.depot bob examples/invoice.eml | tail -n 1
    2 message "INBOX"
    $ cp mail.depot before
    $ depot scrub mail.depot | sed 's/^octets [0-9]*/octets N/'
    contents 2
    octets N
    damaged 0
    $ cmp mail.depot before
    $ [ "$(depot scrub mail.depot | sed -n 's/^octets //p')" = "$(cat mail examples/invoice.eml | wc -c)" ]

## a depot of nobody
    $ depot list mail.depot ann
    none
    $ depot scrub mail.depot
    contents 0
    octets 0
    damaged 0

## contents that were changed
Only if: python3 -c 'import sqlite3' # there is no sqlite3 for python3
    $ for n in 1 2 3; do printf 'Subject: %s\n\n%s\n' $n $n > mail && for user in bob ann; do depot deliver mail.depot $user mail > said; done; done
    $ depot remove mail.depot bob 3
    removed 3
    $ cat > alter <<'END'
    > import sqlite3, sys
    > file = sqlite3.connect(sys.argv[1])
    > asked = "SELECT octets, digest FROM entries JOIN contents USING (digest) WHERE user = 'ann' AND number = ?"
    > octets, digest = file.execute(asked, (int(sys.argv[2]),)).fetchone()
    > octets = octets[:8] + bytes([octets[8] ^ 1]) + octets[9:]
    > file.execute("UPDATE contents SET octets = ? WHERE digest = ?", (octets, digest))
    > file.commit()
    > file.close()
    > END
    $ python3 alter mail.depot 3 && python3 alter mail.depot 2
    $ depot scrub mail.depot
    contents 3
    octets 42
    damaged 2
    2 "ann" "INBOX"
    3 "ann" "INBOX"
    2 "bob" "INBOX"
    2> refused 43 Database
    [1]
    $ depot inspect mail.depot | sed -n 1p
    depot
    $ depot export mail.depot ann 1 raw | tail -n 1
    1
    $ depot scrub mail.depot > /dev/full
    2> refused 45 Write
    [1]
    $ for n in 2 3; do python3 alter mail.depot $n; done; depot scrub mail.depot | tail -n 1
    damaged 0

## no depot
    $ printf 'no depot\n' > file
    $ depot scrub file
    2> refused 43 Database
    [1]
    $ cat file && test ! -e file-wal
    no depot
    $ depot scrub none.depot; test ! -e none.depot
    2> refused 43 Database
    $ : > empty
    $ depot scrub empty
    2> refused 43 Database
    [1]

## it doesn't wait for another process
Only if: command -v sqlite3 # there is no sqlite3
    $ depot list mail.depot ann
    none
    $ sqlite3 mail.depot 'BEGIN EXCLUSIVE' '.shell depot scrub mail.depot; echo $?'
    1
    2> refused 43 Database

## no line of a batch
    $ depot list mail.depot ann
    none
    $ echo scrub | depot batch mail.depot | cut -c 1
    ?
    =
