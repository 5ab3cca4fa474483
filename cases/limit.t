# limit: how much a program may charge and file, where messages have at most so many octets and parts

Programs that are accepted. KEEP, FILE and STORE count once each time that they may run, and the implicit keep once; the octets are
those of the message, and again for each time that STORE may run, 32 times at most.

## one keep
    $ depot limit examples/keep.svbc 1000 1
    charge 2
    entries 2
    octets 1000

## nothing is filed twice where nothing is stored
    $ depot compile examples/sort.sieve out
    wrote 332 octets
    $ depot limit out 1000 4096
    charge 85129
    entries 4
    octets 1000

## a loop that stores
    $ depot limit examples/documents.svbc 10000000 8
    charge 2320000362
    entries 9
    octets 90000000

## as many parts as depths
    $ depot limit examples/documents.svbc 1000 32
    charge 929442
    entries 33
    octets 33000

## more parts than depths
    $ depot limit examples/documents.svbc 1000 33
    charge 958487
    entries 34
    octets 33000

## the largest message
    $ depot limit examples/documents.svbc 67108864 4096
    charge 7971459485698
    entries 4097
    octets 2214592512

## a message without octets
    $ depot limit examples/documents.svbc 0 1
    charge 47
    entries 2
    octets 0

A loop in a loop, which stores, and keeps in the outer one. Of five parts there are ten chains of two.

## loops in loops
    $ cat > listing << 'END'
    > version 2 variables 0
    > label outer EACH c last
    > label inner EACH c end
    >     LIT c "x" STORE
    > label end NEXT c inner
    >     KEEP
    > label last NEXT c outer
    > HALT
    > END
    $ depot assemble listing out
    wrote 82 octets
    $ depot verify out
    A0=2 B0=0 A1=3 B1=0 A2=4 B2=0 A3=0 B3=0 by chains
    $ depot limit out 100 5
    charge 57
    entries 16
    octets 1100

## in version 1 by powers
    $ cat > listing << 'END'
    > version 1 variables 0
    > label outer EACH c last
    > label inner EACH c end
    >     LIT c "x" STORE
    > label end NEXT c inner
    >     KEEP
    > label last NEXT c outer
    > HALT
    > END
    $ depot assemble listing out
    wrote 82 octets
    $ depot limit out 100 5
    charge 117
    entries 31
    octets 2600

Refusals are those of `verify`.

## a jump back
    $ depot limit examples/endless.svbc 1000 1
    2> refused 25 Jump at 0
    [1]

## octets that spell no program
    $ depot limit /dev/null 1000 1
    2> refused 20 Spelling
    [1]

## a file that isn't there
    $ depot limit nothing 1000 1
    2> refused 46 Read
    [1]

Numbers that no message has are no words of a command.

## too many octets
    $ depot limit examples/keep.svbc 67108865 1
    2> error: invalid value '67108865' for '<OCTETS>': 67108865 is not in 0..=67108864
    2>
    2> For more information, try '--help'.
    [2]

## no part
    $ depot limit examples/keep.svbc 1000 0
    2> error: invalid value '0' for '<PARTS>': 0 is not in 1..=4096
    2>
    2> For more information, try '--help'.
    [2]

## too many parts
    $ depot limit examples/keep.svbc 1000 4097
    2> error: invalid value '4097' for '<PARTS>': 4097 is not in 1..=4096
    2>
    2> For more information, try '--help'.
    [2]

## no number
    $ depot limit examples/keep.svbc many 1
    2> error: invalid value 'many' for '<OCTETS>': invalid digit found in string
    2>
    2> For more information, try '--help'.
    [2]

## no parts said
    $ depot limit examples/keep.svbc 1000
    2> error: the following required arguments were not provided:
    2>   <PARTS>
    2>
    2> Usage: depot limit <PROGRAM> <OCTETS> <PARTS>
    2>
    2> For more information, try '--help'.
    [2]
