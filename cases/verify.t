# verify: the budget of a program, or the rule that it breaks

A program is `SVBC`, its version 1, four numbers (how many variables, numbers, strings and instructions it has), then these: docs/BYTECODE.md has the
layout. Here each instruction is a line.

Programs that are accepted; `gallery.t` has more of them.

## keep
    $ depot verify examples/keep.svbc
    A0=2 B0=0 A1=0 B1=0 A2=0 B2=0 A3=0 B3=0

## discard large
    $ depot verify examples/discard-large.svbc
    A0=4 B0=0 A1=0 B1=0 A2=0 B2=0 A3=0 B3=0 by chains

## documents
    $ depot verify examples/documents.svbc
    A0=2 B0=0 A1=16 B1=29 A2=0 B2=0 A3=0 B3=0 by chains

Octets that spell no program.

## an empty file
    $ depot verify /dev/null
    2> refused 20 Spelling
    [1]

## a message
    $ depot verify examples/newsletter.eml
    2> refused 20 Spelling
    [1]

## an octet too few
    $ printf 'SVBC\1\0\0\0\0\0\0\0\0\0\2' > program
    $ printf '\23\0\0\0\0\0\0\0' >> program # KEEP
    $ printf '\1\0\0\0\0\0\0' >> program # HALT
    $ depot verify program
    2> refused 20 Spelling
    [1]

## an octet too many
    $ printf 'SVBC\1\0\0\0\0\0\0\0\0\0\2' > program
    $ printf '\23\0\0\0\0\0\0\0' >> program # KEEP
    $ printf '\1\0\0\0\0\0\0\0' >> program # HALT
    $ printf '\0' >> program # an octet too many
    $ depot verify program
    2> refused 20 Spelling
    [1]

Programs that break a rule.

## index
    $ printf 'SVBC\1\0\0\0\0\0\0\0\0\0\4' > program
    $ printf '\17\0\0\0\0\0\0\0' >> program # SIZE
    $ printf '\13\0\0\0\0\0\0\3' >> program # JF
    $ printf '\24\0\0\0\0\0\0\0' >> program # DISCARD
    $ printf '\1\0\0\0\0\0\0\0' >> program # HALT
    $ depot verify program
    2> refused 21 Index at 0
    [1]

## form
    $ printf 'SVBC\1\0\0\0\0\0\0\0\0\0\2' > program
    $ printf '\377\0\0\0\0\0\0\0' >> program # no operation
    $ printf '\1\0\0\0\0\0\0\0' >> program # HALT
    $ depot verify program
    2> refused 22 Form at 0
    [1]

## least number
    $ printf 'SVBC\1\0\0\0\0\0\0\0\0\0\2' > program
    $ printf '\t\0\0\0\0\0\0\0' >> program # JMP
    $ printf '\377\0\0\0\0\0\0\0' >> program # no operation
    $ depot verify program
    2> refused 22 Form at 1
    [1]

## no instruction
    $ printf 'SVBC\1\0\0\0\0\0\0\0\0\0\0' > program
    $ depot verify program
    2> refused 23 End at 0
    [1]

## end
    $ printf 'SVBC\1\0\0\0\0\0\0\0\0\0\1' > program
    $ printf '\23\0\0\0\0\0\0\0' >> program # KEEP
    $ depot verify program
    2> refused 23 End at 0
    [1]

## loop
    $ printf 'SVBC\1\0\0\0\0\0\0\0\0\0\2' > program
    $ printf '\30\0\0\0\0\0\0\0' >> program # NEXT
    $ printf '\1\0\0\0\0\0\0\0' >> program # HALT
    $ depot verify program
    2> refused 24 Loop at 0
    [1]

## jump
    $ printf 'SVBC\1\0\0\0\0\0\0\0\0\0\2' > program
    $ printf '\t\0\0\0\0\0\0\0' >> program # JMP
    $ printf '\1\0\0\0\0\0\0\0' >> program # HALT
    $ depot verify program
    2> refused 25 Jump at 0
    [1]

## no part
    $ printf 'SVBC\1\0\0\0\0\0\0\0\0\0\2' > program
    $ printf '\26\0\0\0\0\0\0\0' >> program # STORE
    $ printf '\1\0\0\0\0\0\0\0' >> program # HALT
    $ depot verify program
    2> refused 26 NoPart at 0
    [1]

## stack
    $ printf 'SVBC\1\0\0\0\0\0\0\0\0\0\2' > program
    $ printf '\10\0\0\0\0\0\0\0' >> program # NOT
    $ printf '\1\0\0\0\0\0\0\0' >> program # HALT
    $ depot verify program
    2> refused 27 Stack at 0
    [1]
