# trace of a program: each step of its run, and then what run prints

Octets that begin with SVBC are taken for a program.

## the program that keeps
    $ depot trace examples/keep.svbc /dev/null
    0 KEEP | 1 1
    1 HALT | 1 2
    keep
    charged 2 of 2

## a test, a jump, a variable and a loop
    $ cat > listing << 'END'
    > version 1 variables 1
    > LIT c "subject"
    > LIT c "bill"
    > HEADER a contains b 1 c 1
    > JF c done
    > LIT c "Bills"
    > SET a 2 ; in capitals
    > VAR
    > FILE
    > label each EACH c next
    > LIT c "Parts"
    > STORE
    > JMP c next
    > label next NEXT c each
    > label done HALT
    > END
    $ depot assemble listing program
    wrote 156 octets
    $ printf 'Subject: the bill\n\n' > message
    $ depot trace program message
    0 LIT | 1 1 | "subject"
    1 LIT c 1 | 1 2 | "bill"
    2 HEADER a 1 b 1 c 1 | 62 64 | yes
    3 JF c 13 | 1 65 | yes
    4 LIT c 2 | 1 66 | "Bills"
    5 SET a 2 | 6 72 | "BILLS"
    6 VAR | 1 73 | "BILLS"
    7 FILE | 6 79 | "BILLS"
    8 EACH c 12 | 1 80 | part 0
    9 LIT c 3 | 1 81 | part 0 | "Parts"
    10 STORE | 6 87 | part 0 | "Parts"
    11 JMP c 12 | 1 88 | part 0
    12 NEXT c 8 | 1 89
    13 HALT | 1 90
    fileinto "BILLS"
    store "Parts" 0
    charged 90 of 4380
    $ depot run program message
    fileinto "BILLS"
    store "Parts" 0
    charged 90 of 4380
    $ depot trace program message | sort -t '|' -k 2,2nr | head -n 1
    2 HEADER a 1 b 1 c 1 | 62 64 | yes
    $ printf 'Subject: x\n\n' > message
    $ depot trace program message
    0 LIT | 1 1 | "subject"
    1 LIT c 1 | 1 2 | "bill"
    2 HEADER a 1 b 1 c 1 | 27 29 | no
    3 JF c 13 | 1 30 | no
    13 HALT | 1 31
    keep
    charged 31 of 4289
    $ depot run program message
    keep
    charged 31 of 4289

## loops in one another, left at once
    $ cat > listing << 'END'
    > version 2 variables 1 number 2
    > BOOL a 1
    > NOT
    > JT c done
    > label each EACH c next
    > label inner EACH c inner_next
    > TAKE b 3
    > PARTSIZE
    > JF c inner_next
    > BREAK a 2
    > label inner_next NEXT c inner
    > KEEP
    > label next NEXT c each
    > VAR
    > LIT c "\00\22\ff"
    > JOIN b 2
    > FILE
    > label done HALT
    > END
    $ depot assemble listing program
    wrote 164 octets
    $ printf 'Content-Type: multipart/mixed; boundary=o\n\n--o\n\nhello\n--o\n\nx\n--o--\n' > message
    $ depot trace program message
    0 BOOL a 1 | 1 1 | yes
    1 NOT | 1 2 | no
    2 JT c 16 | 1 3 | no
    3 EACH c 11 | 1 4 | part 0
    4 EACH c 9 | 1 5 | part 1
    5 TAKE b 3 | 4 9 | part 1 | "hel"
    6 PARTSIZE | 1 10 | part 1 | yes
    7 JF c 9 | 1 11 | part 1 | yes
    8 BREAK a 2 | 1 12
    12 VAR | 1 13 | "hel"
    13 LIT | 1 14 | "\00\22\ff"
    14 JOIN b 2 | 7 21 | "hel\00\22\ff"
    15 FILE | 7 28 | "hel\00\22\ff"
    16 HALT | 1 29
    fileinto "hel\00\22\ff"
    charged 29 of 8240
    $ depot run program message
    fileinto "hel\00\22\ff"
    charged 29 of 8240

Both loops go on to their ends where no part is long enough.

    $ printf 'Content-Type: multipart/mixed; boundary=o\n\n--o\n\nx\n--o\n\ny\n--o--\n' > message
    $ depot trace program message
    0 BOOL a 1 | 1 1 | yes
    1 NOT | 1 2 | no
    2 JT c 16 | 1 3 | no
    3 EACH c 11 | 1 4 | part 0
    4 EACH c 9 | 1 5 | part 1
    5 TAKE b 3 | 2 7 | part 1 | "x"
    6 PARTSIZE | 1 8 | part 1 | no
    7 JF c 9 | 1 9 | part 1 | no
    9 NEXT c 4 | 1 10 | part 2
    5 TAKE b 3 | 2 12 | part 2 | "y"
    6 PARTSIZE | 1 13 | part 2 | no
    7 JF c 9 | 1 14 | part 2 | no
    9 NEXT c 4 | 1 15 | part 0
    10 KEEP | 1 16 | part 0
    11 NEXT c 3 | 1 17 | part 1
    4 EACH c 9 | 1 18 | part 1
    10 KEEP | 1 19 | part 1
    11 NEXT c 3 | 1 20 | part 2
    4 EACH c 9 | 1 21 | part 2
    10 KEEP | 1 22 | part 2
    11 NEXT c 3 | 1 23
    12 VAR | 1 24 | "y"
    13 LIT | 1 25 | "\00\22\ff"
    14 JOIN b 2 | 5 30 | "y\00\22\ff"
    15 FILE | 5 35 | "y\00\22\ff"
    16 HALT | 1 36
    keep
    fileinto "y\00\22\ff"
    charged 36 of 8240
    $ depot run program message
    keep
    fileinto "y\00\22\ff"
    charged 36 of 8240

## what the steps charge is together what the run charges
    $ depot trace examples/documents.svbc examples/invoice.eml | awk -F ' [|] ' 'NF > 1 { split($2, n, " "); sum += n[1]; if (sum != n[2]) print } END { print sum }'
    1524
    $ depot trace examples/documents.svbc examples/invoice.eml | tail -n 4
    8 HALT | 1 1524
    store "Documents" 4
    keep
    charged 1524 of 2779152

## a text that is long
    $ printf 'version 1 variables 0 LIT c "%0100d" FILE HALT' 7 > listing
    $ depot assemble listing program
    wrote 141 octets
    $ depot trace program /dev/null | sed -n 1p
    0 LIT | 1 1 | "00000000000000000000000000000000000000000000000000000000000000000000000000000000"..

## a text of 81 bytes
    $ printf 'version 1 variables 0 LIT c "%s" FILE HALT' "$(printf %081d 0 | tr 0 a)" > listing
    $ depot assemble listing program
    wrote 122 octets
    $ depot trace program /dev/null
    0 LIT | 1 1 | "aaaaaaaaaaaaaaaaaaaaaaaaaaaaaaaaaaaaaaaaaaaaaaaaaaaaaaaaaaaaaaaaaaaaaaaaaaaaaaaa"..
    1 FILE | 82 83 | "aaaaaaaaaaaaaaaaaaaaaaaaaaaaaaaaaaaaaaaaaaaaaaaaaaaaaaaaaaaaaaaaaaaaaaaaaaaaaaaa"..
    2 HALT | 1 84
    fileinto "aaaaaaaaaaaaaaaaaaaaaaaaaaaaaaaaaaaaaaaaaaaaaaaaaaaaaaaaaaaaaaaaaaaaaaaaaaaaaaaaa"
    charged 84 of 84
    $ depot run program /dev/null
    fileinto "aaaaaaaaaaaaaaaaaaaaaaaaaaaaaaaaaaaaaaaaaaaaaaaaaaaaaaaaaaaaaaaaaaaaaaaaaaaaaaaaa"
    charged 84 of 84

## a loop over 1,000 parts
    $ { printf 'Content-Type: multipart/mixed; boundary=o\n\n'; yes -- "$(printf -- '--o\n\nx')" | head -n 3000; } > message
    $ printf 'version 1 variables 0 label each EACH c next label next NEXT c each HALT' > listing
    $ depot assemble listing program
    wrote 39 octets
    $ depot trace program message > steps
    $ sed -n '1,2p;1001,$p' steps
    0 EACH c 1 | 1 1 | part 0
    1 NEXT | 1 2 | part 1
    1 NEXT | 1 1001 | part 1000
    1 NEXT | 1 1002
    2 HALT | 1 1003
    keep
    charged 1003 of 1003
    $ depot run program message
    keep
    charged 1003 of 1003

## the steps of the program that a script compiles to
    $ printf 'require "fileinto"; fileinto "a";' > script
    $ depot compile script program
    wrote 42 octets
    $ depot trace program /dev/null
    0 LIT | 1 1 | "a"
    1 FILE | 2 3 | "a"
    2 HALT | 1 4
    fileinto "a"
    charged 4 of 4
    $ depot trace script /dev/null
    script:1:21: fileinto "a"
    fileinto "a"
    charged 4 of 4

Refusals come before anything is told, and are those of run.

## no more than the beginning of a program
    $ printf 'SVBC' > program
    $ depot trace program /dev/null
    2> refused 20 Spelling
    [1]

## a program that is refused
    $ depot trace examples/endless.svbc /dev/null
    2> refused 25 Jump at 0
    [1]

## the program before the message
    $ depot trace examples/endless.svbc "$FILES/too-many-parts"
    2> refused 25 Jump at 0
    [1]
    $ depot trace examples/keep.svbc "$FILES/too-many-parts"
    2> refused 3 TooManyParts
    [1]

## a writer that takes nothing
    $ depot trace examples/keep.svbc /dev/null > /dev/full
    2> refused 45 Write
    [1]
