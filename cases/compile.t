# compile: the program of a script

What is written is compared with the examples, and verified or run.

## an empty script
    $ : > script
    $ depot compile script out
    wrote 23 octets
    $ depot run out examples/invoice.eml
    keep
    charged 1 of 1

## discard large
    $ depot compile examples/discard-large.sieve out
    wrote 55 octets
    $ cmp out examples/discard-large.svbc

## documents
    $ depot compile examples/documents.sieve out
    wrote 129 octets
    $ cmp out examples/documents.svbc

## tests
    $ echo 'if anyof (false, allof (true, not size :over 3)) { discard; } else { keep; }' > script
    $ printf abcd > message
    $ depot compile script out
    wrote 103 octets
    $ depot verify out
    A0=10 B0=0 A1=0 B1=0 A2=0 B2=0 A3=0 B3=0 by chains
    $ depot run out message
    keep
    charged 8 of 10

## strings
    $ echo 'require "fileinto"; if header :contains "Subject" "a" { fileinto "x"; }' > script
    $ printf 'Subject: a\r\n\r\n' > message
    $ depot compile script out
    wrote 86 octets
    $ depot verify out
    A0=8 B0=10 A1=0 B1=0 A2=0 B2=0 A3=0 B3=0 by chains
    $ depot run out message
    fileinto "x"
    charged 28 of 158
    $ od -An -v -tx1 out
     53 56 42 43 02 00 00 00 00 00 03 00 00 00 07 00
     07 53 75 62 6a 65 63 74 00 01 61 00 01 78 02 00
     00 00 00 00 00 00 02 00 00 00 00 00 00 01 0c 01
     00 01 00 00 00 01 0b 00 00 00 00 00 00 06 02 00
     00 00 00 00 00 02 15 00 00 00 00 00 00 00 01 00
     00 00 00 00 00 00

## variables
    $ echo 'require ["variables", "fileinto"]; set "Name" "x"; fileinto "${name}";' > script
    $ : > message
    $ depot compile script out
    wrote 58 octets
    $ depot verify out
    A0=4102 B0=0 A1=0 B1=0 A2=0 B2=0 A3=0 B3=0 by chains
    $ depot run out message
    fileinto "x"
    charged 7 of 4102
    $ od -An -v -tx1 out
     53 56 42 43 02 00 01 00 00 00 01 00 00 00 05 00
     01 78 02 00 00 00 00 00 00 00 06 00 00 00 00 00
     00 00 03 00 00 00 00 00 00 00 15 00 00 00 00 00
     00 00 01 00 00 00 00 00 00 00

## loops
    $ printf 'require ["foreverypart", "vnd.depot"]; foreverypart { if partbody :contains "bc" { store "h"; } }' > script
    $ printf '\nabc' > message
    $ depot compile script out
    wrote 86 octets
    $ depot verify out
    A0=2 B0=0 A1=7 B1=3 A2=0 B2=0 A3=0 B3=0 by chains
    $ depot run out message
    store "h" 0
    keep
    charged 21 of 24

## loop in a loop
    $ printf 'require "foreverypart"; foreverypart { foreverypart { keep; } }' > script
    $ depot compile script out
    wrote 63 octets
    $ depot verify out
    A0=2 B0=0 A1=2 B1=0 A2=2 B2=0 A3=0 B3=0 by chains

## stored part
    $ printf 'require ["foreverypart", "vnd.depot"]; foreverypart { store "att"; }' > script
    $ depot compile script out
    wrote 60 octets
    $ depot verify out
    A0=2 B0=0 A1=6 B1=0 A2=0 B2=0 A3=0 B3=0 by chains

## blocklist
    $ depot compile examples/blocklist.sieve out
    wrote 395 octets
    $ depot verify out
    A0=2 B0=0 A1=8480 B1=75 A2=0 B2=0 A3=0 B3=0 by chains

## tickets
    $ depot compile examples/tickets.sieve out
    wrote 382 octets
    $ depot verify out
    A0=4104 B0=15 A1=16426 B1=98 A2=0 B2=0 A3=0 B3=0 by chains

A file that is there already.

## an older file is replaced
    $ echo 'if anyof (false, allof (true, not size :over 3)) { discard; } else { keep; }' > script
    $ echo 'keep;' > second
    $ depot compile script out
    wrote 103 octets
    $ depot compile second out
    wrote 31 octets
    $ depot verify out
    A0=2 B0=0 A1=0 B1=0 A2=0 B2=0 A3=0 B3=0 by chains

## with the rights and the owner of the older file
Only if: [ "$(id -u)" = 0 ] # this user can't give a file to another

    $ echo old > out; chown 12345:23456 out; chmod 640 out
    $ depot compile examples/documents.sieve out
    wrote 129 octets
    $ stat -c '%u %g %a' out
    12345 23456 640

## a refused script leaves an older file
    $ echo 'keep;' > script
    $ echo 'keep "x";' > second
    $ depot compile script out
    wrote 31 octets
    $ depot compile second out
    2> refused 18 BadArguments at 0
    [1]
    $ depot verify out
    A0=2 B0=0 A1=0 B1=0 A2=0 B2=0 A3=0 B3=0 by chains

## by a link
    $ ln -s out link
    $ depot compile examples/discard-large.sieve link
    wrote 55 octets
    $ depot compile examples/discard-large.sieve link
    wrote 55 octets
    $ cmp out examples/discard-large.svbc

## not onto its script
    $ printf 'keep;' > keeping
    $ depot compile keeping keeping
    2> refused 45 Write
    [1]
    $ depot check keeping
    ok

## not onto its script by a link
    $ printf 'keep;' > keeping
    $ ln -s keeping same
    $ depot compile keeping same
    2> refused 45 Write
    [1]
    $ depot check keeping
    ok

## not from a link onto its script
    $ printf 'keep;' > keeping
    $ ln -s keeping same
    $ depot compile same keeping
    2> refused 45 Write
    [1]
    $ depot check same
    ok

## not onto the files that a depot has beside it, by their names or by a link
    $ depot deliver mail.depot ann examples/ticket.eml
    1 message "INBOX"
    $ ln -s mail.depot-wal link
    $ for out in mail.depot-wal mail.depot-shm ./mail.depot-journal "$PWD/mail.depot-wal" link; do depot compile examples/documents.sieve "$out"; echo "$?"; done
    1
    1
    1
    1
    1
    2> refused 45 Write
    2> refused 45 Write
    2> refused 45 Write
    2> refused 45 Write
    2> refused 45 Write
    $ echo 'version 1 variables 0 HALT' > listing && depot assemble listing mail.depot-shm
    2> refused 45 Write
    [1]
    $ depot list mail.depot ann
    1 message "INBOX" "" message/rfc822 3678

## onto a file of such a name where no depot is, also beside the script
    $ echo 'keep;' > script
    $ depot compile script script-wal && depot compile script other-journal && cmp script-wal other-journal
    wrote 31 octets
    wrote 31 octets

Nothing is written.

## a refused script makes no file
    $ echo 'keep "x";' > script
    $ depot compile script out
    2> refused 18 BadArguments at 0
    [1]
    $ depot verify out
    2> refused 46 Read
    [1]

## into an empty name
    $ depot compile examples/discard-large.sieve ''
    2> refused 45 Write
    [1]

## into a missing folder
    $ depot compile examples/discard-large.sieve missing/out
    2> refused 45 Write
    [1]

## into a folder
    $ mkdir folder
    $ depot compile examples/discard-large.sieve folder
    2> refused 45 Write
    [1]

## into a folder that nobody may write
Only if: [ "$(id -u)" != 0 ] # this user may read and write every file
    $ mkdir fixed
    $ chmod 555 fixed
    $ depot compile examples/discard-large.sieve fixed/new
    2> refused 45 Write
    [1]

## an older file in a folder that nobody may write
Only if: [ "$(id -u)" != 0 ] # this user may read and write every file
    $ mkdir fixed
    $ printf 'keep;' > fixed/older
    $ chmod 555 fixed
    $ depot compile examples/discard-large.sieve fixed/older
    2> refused 45 Write
    [1]
    $ depot check fixed/older
    ok

## into a file that nobody may write
Only if: [ "$(id -u)" != 0 ] # this user may read and write every file
    $ : > locked
    $ chmod 000 locked
    $ depot compile examples/discard-large.sieve locked
    2> refused 45 Write
    [1]

A file that was made, and can't have its name: the call that gives it is made to fail.

## a file that can't have its name is taken away
Only if: command -v cc # there is no C compiler
    $ echo 'int rename(const char *old, const char *new) { return -1; }' > fails.c
    $ cc -shared -fPIC -o fails.so fails.c
    $ LD_PRELOAD=$PWD/fails.so depot compile examples/discard-large.sieve out
    2> refused 45 Write
    [1]
    $ ls -A
    depot
    examples
    fails.c
    fails.so

## the one that has the name stays
Only if: command -v cc # there is no C compiler
    $ echo 'int rename(const char *old, const char *new) { return -1; }' > fails.c
    $ cc -shared -fPIC -o fails.so fails.c
    $ printf 'keep;' > older
    $ LD_PRELOAD=$PWD/fails.so depot compile examples/discard-large.sieve older
    2> refused 45 Write
    [1]
    $ depot check older
    ok

Devices.

## into the null device
    $ depot compile examples/discard-large.sieve /dev/null
    wrote 55 octets

## into a full device
    $ depot compile examples/discard-large.sieve /dev/full
    2> refused 45 Write
    [1]
