# Streams that are closed, devices that are full, files that can't be read

Standard input is closed: only a command that reads it notices.

## check with closed input
    $ depot check examples/discard-large.sieve <&-
    ok

## compile with closed input
    $ depot compile examples/discard-large.sieve out <&-
    wrote 55 octets
    $ cmp out examples/discard-large.svbc

## verify with closed input
    $ depot verify examples/discard-large.svbc <&-
    A0=4 B0=0 A1=0 B1=0 A2=0 B2=0 A3=0 B3=0 by chains

## run with closed input
    $ depot run examples/discard-large.svbc examples/newsletter.eml <&-
    none
    charged 4 of 4

## eval with closed input
    $ depot eval examples/discard-large.sieve examples/newsletter.eml <&-
    none
    charged 4 of 4

## encode with closed input
    $ depot encode base16 <&-
    2> refused 46 Read
    [1]

## decode with closed input
    $ depot decode base16 <&-
    2> refused 46 Read
    [1]

## no words with closed input
    $ depot <&-
    2> refused 46 Read
    [1]

Standard output is closed: the answer can't be written.

## check with closed output
    $ depot check examples/discard-large.sieve >&-
    2> refused 45 Write
    [1]

## compile with closed output
    $ depot compile examples/discard-large.sieve out >&-
    2> refused 45 Write
    [1]
    $ cmp out examples/discard-large.svbc

## compile with closed input and output
    $ depot compile examples/discard-large.sieve out <&- >&-
    2> refused 45 Write
    [1]
    $ cmp out examples/discard-large.svbc

## verify with closed output
    $ depot verify examples/discard-large.svbc >&-
    2> refused 45 Write
    [1]

## run with closed output
    $ depot run examples/discard-large.svbc examples/newsletter.eml >&-
    2> refused 45 Write
    [1]

## eval with closed output
    $ depot eval examples/discard-large.sieve examples/newsletter.eml >&-
    2> refused 45 Write
    [1]

## parts with closed output
    $ depot parts examples/newsletter.eml >&-
    2> refused 45 Write
    [1]

## encode with closed output
    $ printf 6666 | depot encode base16 >&-
    2> refused 45 Write
    [1]

## decode with closed output
    $ printf 6666 | depot decode base16 >&-
    2> refused 45 Write
    [1]

Standard error is closed: it isn't missed where nothing is refused, and nothing else takes its number.

## check with closed errors
    $ depot check examples/discard-large.sieve 2>&-
    ok

## compile with closed errors
    $ depot compile examples/discard-large.sieve out 2>&-
    wrote 55 octets
    $ cmp out examples/discard-large.svbc

## compile with closed output and errors
    $ depot compile examples/discard-large.sieve out >&- 2>&-
    [1]
    $ cmp out examples/discard-large.svbc

## compile with all streams closed
    $ depot compile examples/discard-large.sieve out <&- >&- 2>&-
    [1]
    $ cmp out examples/discard-large.svbc

## compile refused with closed errors
    $ depot compile missing out 2>&-
    [1]

## verify with closed errors
    $ depot verify examples/discard-large.svbc 2>&-
    A0=4 B0=0 A1=0 B1=0 A2=0 B2=0 A3=0 B3=0 by chains

## run with closed errors
    $ depot run examples/discard-large.svbc examples/newsletter.eml 2>&-
    none
    charged 4 of 4

## eval with closed errors
    $ depot eval examples/discard-large.sieve examples/newsletter.eml 2>&-
    none
    charged 4 of 4

The device behind standard output is full.

## check into a full device
    $ depot check examples/discard-large.sieve > /dev/full
    2> refused 45 Write
    [1]

## explain into a full device
    $ cat > script << 'END'
    > if true {
    >     keep;
    > } elseif false {
    >     discard;
    > }
    > END
    $ depot explain script > /dev/full
    2> refused 45 Write
    [1]

## compile with its answer into a full device
    $ depot compile examples/discard-large.sieve out > /dev/full
    2> refused 45 Write
    [1]
    $ cmp out examples/discard-large.svbc

## verify into a full device
    $ depot verify examples/keep.svbc > /dev/full
    2> refused 45 Write
    [1]

## run into a full device
    $ depot run examples/keep.svbc examples/invoice.eml > /dev/full
    2> refused 45 Write
    [1]

## eval into a full device
    $ depot eval examples/discard-large.sieve examples/invoice.eml > /dev/full
    2> refused 45 Write
    [1]

## parts into a full device
    $ depot parts examples/newsletter.eml > /dev/full
    2> refused 45 Write
    [1]

## encode into a full device
    $ printf foobar | depot encode base64 > /dev/full
    2> refused 45 Write
    [1]

## deliver and export into a full device
    $ printf foobar > message
    $ depot deliver mail.depot ann message > /dev/full
    2> refused 45 Write
    [1]
    $ depot export mail.depot ann 1 raw > /dev/full
    2> refused 45 Write
    [1]

## deliver and remove into a full device
    $ printf foobar > message
    $ depot deliver mail.depot ann message > /dev/full
    2> refused 45 Write
    [1]
    $ depot remove mail.depot ann 1 > /dev/full
    2> refused 45 Write
    [1]
    $ depot export mail.depot ann 1 raw > /dev/full
    2> refused 40 NoSuchEntry
    [1]

Files that aren't there or can't be read.

## check of a missing script
    $ depot check missing.sieve
    2> refused 46 Read
    [1]

## explain of a missing script
    $ depot explain missing.sieve
    2> refused 46 Read
    [1]

## compile of a missing script
    $ depot compile missing.sieve out
    2> refused 46 Read
    [1]

## run of a missing program
    $ depot run missing.svbc "$FILES/too-large"
    2> refused 46 Read
    [1]

## run of a missing message, with a program that would be refused
    $ depot run examples/endless.svbc missing.eml
    2> refused 46 Read
    [1]

## parts of a missing message
    $ depot parts examples/missing.eml
    2> refused 46 Read
    [1]

## run on a folder
    $ mkdir folder
    $ depot run examples/keep.svbc folder
    2> refused 46 Read
    [1]

## verify of a file that nobody may read
Only if: [ "$(id -u)" != 0 ] # this user may read and write every file
    $ : > locked
    $ chmod 000 locked
    $ depot verify locked
    2> refused 46 Read
    [1]
