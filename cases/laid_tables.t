# Tables that another program changed: what commands print then, and that a refusal leaves every row as it was

Each case begins with a depot whose tables a line of SQL has changed.

## the last number
Only if: python3 -c 'import sqlite3' # there is no sqlite3 for python3
    $ : > empty
    $ depot list mail.depot dan
    none
    $ "$TOP/cases/laid" mail.depot "INSERT INTO users (user, last, program) VALUES ('dan', 4294967294, NULL)"
    $ depot deliver mail.depot dan empty
    4294967295 message "INBOX"
    $ "$TOP/cases/laid" mail.depot > before
    $ depot deliver mail.depot dan empty
    2> refused 41 NumberFull
    [1]
    $ "$TOP/cases/laid" mail.depot | cmp - before
    $ depot list mail.depot dan
    4294967295 message "INBOX" "" message/rfc822 0

## a filter that is none any more refuses mail until there is another one
Only if: python3 -c 'import sqlite3' # there is no sqlite3 for python3
    $ : > empty
    $ depot list mail.depot ann
    none
    $ "$TOP/cases/laid" mail.depot "INSERT INTO users (user, last, program) VALUES ('ann', 0, x'00')"
    $ "$TOP/cases/laid" mail.depot > before
    $ depot deliver mail.depot ann empty
    2> refused 43 Database
    [1]
    $ "$TOP/cases/laid" mail.depot | cmp - before
    $ depot list mail.depot ann
    none
    $ depot code mail.depot ann examples/keep.svbc
    stored
    $ depot deliver mail.depot ann empty
    1 message "INBOX"

## a last number that no user has
Only if: python3 -c 'import sqlite3' # there is no sqlite3 for python3
    $ depot list mail.depot ann
    none
    $ "$TOP/cases/laid" mail.depot "INSERT INTO users (user, last, program) VALUES ('ann', -1, NULL)"
    $ depot inspect mail.depot
    2> refused 43 Database
    [1]

## other octets under the digest of a part
Only if: python3 -c 'import sqlite3' # there is no sqlite3 for python3
    $ printf foobar > message
    $ depot deliver mail.depot bob message
    1 message "INBOX"
    $ "$TOP/cases/laid" mail.depot "UPDATE contents SET octets = x'666f6f62617a'"
    $ "$TOP/cases/laid" mail.depot > before
    $ depot deliver mail.depot ann message
    2> refused 42 Collision
    [1]
    $ "$TOP/cases/laid" mail.depot | cmp - before

## a thousand users, of whom every second has a program of version 1
Only if: python3 -c 'import sqlite3' # there is no sqlite3 for python3
    $ depot list mail.depot ann
    none
    $ "$TOP/cases/laid" mail.depot "
    > INSERT INTO users (user, last, program) WITH RECURSIVE n (n) AS (VALUES (0) UNION ALL SELECT n + 1 FROM n WHERE n < 999)
    > SELECT 'user' || n, n, CASE n % 2 WHEN 0 THEN x'53564243010000000000000000000213000000000000000100000000000000'
    > ELSE x'53564243020000000000000000000213000000000000000100000000000000' END FROM n"
    $ for user in user0 user1 user500 stranger; do printf $user > message; depot deliver mail.depot $user message; done
    1 message "INBOX"
    2 message "INBOX"
    501 message "INBOX"
    1 message "INBOX"
    $ "$TOP/cases/laid" mail.depot | sed "s/X'5356424301/X'5356424302/" > migrated
    $ depot migrate mail.depot
    migrated 500
    $ depot migrate mail.depot
    migrated 0
    $ "$TOP/cases/laid" mail.depot | cmp - migrated
    $ grep -c "X'5356424302" migrated
    1000

## no program is migrated if one of three is damaged
Only if: python3 -c 'import sqlite3' # there is no sqlite3 for python3
    $ for user in ann bob cat; do depot code mail.depot $user examples/keep.svbc; done
    stored
    stored
    stored
    $ "$TOP/cases/laid" mail.depot > whole
    $ for damaged in 53564243010000000000000000000209000000000000000100000000000000 \
    > 53564243020000000000000000000209000000000000000100000000000000 ''; do
    > "$TOP/cases/laid" mail.depot "UPDATE users SET program = x'$damaged' WHERE user = 'bob'"; "$TOP/cases/laid" mail.depot > before
    > depot migrate mail.depot; "$TOP/cases/laid" mail.depot | cmp - before; done
    2> refused 43 Database
    2> refused 43 Database
    2> refused 43 Database
    $ depot code mail.depot bob examples/keep.svbc
    stored
    $ "$TOP/cases/laid" mail.depot | cmp - whole
    $ depot migrate mail.depot
    migrated 3
