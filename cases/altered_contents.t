# Contents whose bytes were changed in the file, as a disk changes them, and what scrub reports of them

Changed in the file itself, or by SQL. `alter FILE OLD NEW` puts other bytes in the place of some that the file has once.

## one byte of a content that two users share, and one on the last of many pages
Only if: command -v python3 # there is no python3
    $ cat > alter << 'END'
    > import sys
    > name, old, new = sys.argv[1], *(it.encode() for it in sys.argv[2:])
    > octets = open(name, "rb").read()
    > assert octets.count(old) == 1 and len(old) == len(new), octets.count(old)
    > open(name, "r+b").write(octets.replace(old, new))
    > END
    $ printf 'Subject: shared\n\nthe seventh seal\n' > shared; printf 'Subject: other\n\nnot that one\n' > other
    $ { printf 'Subject: long\n\n'; yes 'a line among many others' | head -n 5000; echo 'the end of the long one'; } > long
    $ for user in bob ann cat; do depot deliver mail.depot $user other; done
    1 message "INBOX"
    1 message "INBOX"
    1 message "INBOX"
    $ for user in bob ann bob; do depot deliver mail.depot $user shared; done; depot deliver mail.depot cat long
    2 message "INBOX"
    2 message "INBOX"
    3 message "INBOX"
    2 message "INBOX"
    $ depot scrub mail.depot
    contents 3
    octets 125102
    damaged 0
    $ python3 alter mail.depot 'the seventh seal' 'the seventh sea!' && cp mail.depot before
    $ depot scrub mail.depot
    contents 3
    octets 125102
    damaged 1
    2 "ann" "INBOX"
    2 "bob" "INBOX"
    3 "bob" "INBOX"
    2> refused 43 Database
    [1]
    $ cmp mail.depot before
    $ depot export mail.depot bob 3 raw
    2> refused 43 Database
    [1]
    $ depot export mail.depot bob 1 raw | cmp - other && depot export mail.depot cat 2 raw | cmp - long
    $ python3 alter mail.depot 'the end of the long one' 'the end of the long 0ne' && depot scrub mail.depot
    contents 3
    octets 125102
    damaged 2
    2 "ann" "INBOX"
    2 "bob" "INBOX"
    3 "bob" "INBOX"
    2 "cat" "INBOX"
    2> refused 43 Database
    [1]
    $ for user in ann bob; do depot remove mail.depot $user 2; done; depot remove mail.depot bob 3; depot remove mail.depot cat 2
    removed 2
    removed 2
    removed 3
    removed 2
    $ depot scrub mail.depot
    contents 1
    octets 29
    damaged 0
    $ for user in ann bob; do depot deliver mail.depot $user shared; done && depot scrub mail.depot | tail -n 1
    3 message "INBOX"
    4 message "INBOX"
    damaged 0

## each byte of a content that two users have, changed and changed back
Only if: python3 -c 'import sqlite3' # there is no sqlite3 for python3
    $ printf foobar > one; printf other > two
    $ depot deliver mail.depot ann one && depot deliver mail.depot ann two && depot deliver mail.depot bob one
    1 message "INBOX"
    2 message "INBOX"
    1 message "INBOX"
    $ for altered in 676f6f626172 666e6f626172 666f6e626172 666f6f636172 666f6f626072 666f6f626173; do
    >     "$TOP/cases/laid" mail.depot "UPDATE contents SET octets = x'$altered' WHERE octets = x'666f6f626172'"; "$TOP/cases/laid" mail.depot > before
    >     { for user in ann bob; do depot export mail.depot $user 1 raw; echo "$?"; done; depot export mail.depot ann 2 raw | cmp - two
    >     depot scrub mail.depot; echo "$?"; "$TOP/cases/laid" mail.depot | cmp - before
    >     "$TOP/cases/laid" mail.depot "UPDATE contents SET octets = x'666f6f626172' WHERE octets = x'$altered'"
    >     for user in ann bob; do depot export mail.depot $user 1 raw | cmp - one; done; depot scrub mail.depot; } > said.$altered 2>&1
    > done; cat said.676f6f626172; for said in said.*; do cmp said.676f6f626172 $said; done; rm said.*
    refused 43 Database
    1
    refused 43 Database
    1
    contents 2
    octets 11
    damaged 1
    1 "ann" "INBOX"
    1 "bob" "INBOX"
    refused 43 Database
    1
    contents 2
    octets 11
    damaged 0

## a part that was stored by itself, and a folder that needs quoting
Only if: command -v python3 # there is no python3
    $ printf 'require ["foreverypart", "mime", "vnd.depot"];\nforeverypart { if header :mime :type "Content-Type" "application" { store "A \\"B\\\\C\303\244"; } }\n' > filter
    $ depot script mail.depot ann filter && depot deliver mail.depot ann examples/invoice.eml
    stored
    1 part "A \22B\5cC\c3\a4"
    2 message "INBOX"
    $ python3 -c 'octets = open("mail.depot", "rb").read(); assert octets.count(b"%PDF-") == 1; open("mail.depot", "r+b").write(octets.replace(b"%PDF-", b"%PDF+"))'
    $ depot scrub mail.depot
    contents 2
    octets 28181
    damaged 1
    1 "ann" "A \22B\5cC\c3\a4"
    2> refused 43 Database
    [1]
    $ depot export mail.depot ann 2 raw | cmp - examples/invoice.eml

## a thousand entries of one content
Only if: command -v python3 # there is no python3
    $ printf 'Subject: one of many\n\nsame\n' > mail && yes 'deliver ann mail' | head -n 1000 | depot batch mail.depot | grep -c '= 0'
    1000
    $ python3 -c 'octets = open("mail.depot", "rb").read(); assert octets.count(b"one of many") == 1; open("mail.depot", "r+b").write(octets.replace(b"one of many", b"one of mamy"))'
    $ depot scrub mail.depot > said; head -n 3 said; tail -n +4 said > lines; seq 1000 | sed 's/$/ "ann" "INBOX"/' | cmp - lines && rm said lines
    contents 1
    octets 27
    damaged 1
    2> refused 43 Database

## only contents are compared
Only if: command -v python3 # there is no python3
    $ echo 'require "fileinto"; fileinto "Receipts";' > filter && depot script mail.depot ann filter && depot deliver mail.depot ann filter
    stored
    1 message "Receipts"
    $ python3 -c 'octets = open("mail.depot", "rb").read(); open("mail.depot", "r+b").write(octets.replace(b"ReceiptsINBOX", b"").replace(b"Receiptsmess", b"Deceiptsmess"))'
    $ depot list mail.depot ann; depot scrub mail.depot
    1 message "Deceipts" "" message/rfc822 41
    contents 1
    octets 41
    damaged 0

## digests that are none, and a damaged content that no entry names
Only if: python3 -c 'import sqlite3' # there is no sqlite3 for python3
    $ printf 'a' > mail && for user in ann bob; do depot deliver mail.depot $user mail; done
    1 message "INBOX"
    1 message "INBOX"
    $ printf 'b' > mail && depot deliver mail.depot bob mail
    2 message "INBOX"
    $ "$TOP/cases/laid" mail.depot "UPDATE entries SET digest = x'00' WHERE digest = (SELECT digest FROM entries WHERE user = 'ann')"
    $ "$TOP/cases/laid" mail.depot "UPDATE contents SET digest = x'00' WHERE octets = x'61'"
    $ depot scrub mail.depot
    contents 2
    octets 2
    damaged 1
    1 "ann" "INBOX"
    1 "bob" "INBOX"
    2> refused 43 Database
    [1]
    $ "$TOP/cases/laid" mail.depot "INSERT INTO contents VALUES (x'01', x'636364')" && "$TOP/cases/laid" mail.depot "DELETE FROM entries WHERE digest = x'00'"
    $ depot scrub mail.depot
    contents 3
    octets 5
    damaged 2
    2> refused 43 Database
    [1]

## contents that are in the log alone
Only if: command -v python3 # there is no python3
    $ printf 'Subject: a\n\nin the log\n' > mail
    $ python3 - << 'END'
    > import subprocess
    > batch = subprocess.Popen(["depot", "batch", "mail.depot"], stdin=subprocess.PIPE, stdout=subprocess.PIPE)
    > batch.stdin.write(b"deliver ann mail\n")
    > batch.stdin.flush()
    > print(batch.stdout.readline().decode() + batch.stdout.readline().decode(), end="")
    > batch.kill()
    > END
    1 message "INBOX"
    = 0
    $ grep -c 'in the log' mail.depot
    0
    [1]
    $ depot scrub mail.depot
    contents 1
    octets 23
    damaged 0

What is no depot: `inspect` says why. Nothing is made.

## no file, no folder, a folder, a pipe, a text, a second name
    $ mkdir folder && mkfifo pipe && echo 'no database' > text && depot list mail.depot ann && ln mail.depot second
    none
    $ for name in none.depot none/mail.depot folder pipe text second; do depot scrub $name; echo $?; done
    1
    1
    1
    1
    1
    1
    2> refused 43 Database
    2> refused 43 Database
    2> refused 43 Database
    2> refused 43 Database
    2> refused 43 Database
    2> refused 43 Database
    $ ls -d none* text-wal pipe-wal folder-wal 2> /dev/null
    [2]
    $ rm second && ln -s mail.depot link && depot scrub link | tail -n 1
    damaged 0

## its words, and a file whose name begins with a hyphen
    $ depot scrub 2> /dev/null
    [2]
    $ depot scrub mail.depot more 2> /dev/null
    [2]
    $ depot list ./-.depot ann && depot scrub -- -.depot
    none
    contents 0
    octets 0
    damaged 0

## no rights
Only if: [ "$(id -u)" != 0 ] # this user may read and write every file
    $ depot list mail.depot ann
    none
    $ chmod 400 mail.depot
    $ depot scrub mail.depot
    2> refused 43 Database
    [1]

## a depot that a batch holds, without waiting for its end
Only if: command -v python3 # there is no python3
    $ cat > held << 'END'
    > import subprocess
    > batch = subprocess.Popen(["depot", "batch", "mail.depot"], stdin=subprocess.PIPE, stdout=subprocess.PIPE)
    > batch.stdin.write(b"list ann\n")
    > batch.stdin.flush()
    > print(batch.stdout.readline().decode() + batch.stdout.readline().decode(), end="")
    > print(subprocess.run(["depot", "scrub", "mail.depot"], capture_output=True))
    > print(batch.communicate(b"list ann\n")[0].decode(), end="")
    > END
    $ python3 held
    none
    = 0
    CompletedProcess(args=['depot', 'scrub', 'mail.depot'], returncode=1, stdout=b'', stderr=b'refused 43 Database\n')
    none
    = 0
    $ depot scrub mail.depot | head -n 1
    contents 0
