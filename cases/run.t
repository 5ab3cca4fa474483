# run: what a program does with a message, and what it charges

Programs that are accepted.

## keep
    $ depot run examples/keep.svbc examples/newsletter.eml
    keep
    charged 2 of 2

## keep on a forwarded message
    $ depot run examples/keep.svbc examples/forwarded.eml
    keep
    charged 2 of 2

## documents
    $ depot run examples/documents.svbc examples/invoice.eml
    store "Documents" 4
    keep
    charged 1524 of 2779152

## discard large on a small message
    $ depot run examples/discard-large.svbc examples/invoice.eml
    keep
    charged 3 of 4

## discard large
    $ depot run examples/discard-large.svbc examples/newsletter.eml
    none
    charged 4 of 4

## ten octets
    $ printf 'SVBC\1\0\0\0\1\0\0\0\0\0\4' > program
    $ printf '\0\0\0\0\0\0\0\n' >> program # the number 10
    $ printf '\17\0\0\0\0\0\0\0' >> program # SIZE
    $ printf '\13\0\0\0\0\0\0\3' >> program # JF
    $ printf '\24\0\0\0\0\0\0\0' >> program # DISCARD
    $ printf '\1\0\0\0\0\0\0\0' >> program # HALT
    $ printf 0123456789 > message
    $ depot run program message
    keep
    charged 3 of 4

## eleven octets
    $ printf 'SVBC\1\0\0\0\1\0\0\0\0\0\4' > program
    $ printf '\0\0\0\0\0\0\0\n' >> program # the number 10
    $ printf '\17\0\0\0\0\0\0\0' >> program # SIZE
    $ printf '\13\0\0\0\0\0\0\3' >> program # JF
    $ printf '\24\0\0\0\0\0\0\0' >> program # DISCARD
    $ printf '\1\0\0\0\0\0\0\0' >> program # HALT
    $ printf 0123456789a > message
    $ depot run program message
    none
    charged 4 of 4

Programs that are refused.

## a jump to itself
    $ depot run examples/endless.svbc examples/invoice.eml
    2> refused 25 Jump at 0
    [1]

## a program that is too long
    $ depot run "$FILES/largest" examples/invoice.eml
    2> refused 20 Spelling
    [1]
