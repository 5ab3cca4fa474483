# disassemble, assemble and program: programs as listings, and back

Listings of programs.

## a script's program
    $ depot disassemble examples/discard-large.svbc
    version 2
    variables 0
    number 50000
    0 SIZE ; 50000 ; A0+1
    1 JF c 3 ; to 3 ; A0+1
    2 DISCARD ; A0+1
    3 HALT ; A0+1
    ; A0=4 B0=0 A1=0 B1=0 A2=0 B2=0 A3=0 B3=0 by chains

## a program that isn't accepted
    $ depot disassemble examples/endless.svbc
    version 1
    variables 0
    0 JMP ; to 0 ; refused 25 Jump
    1 HALT
    ; refused 25 Jump at 0

## what a loop adds to the budget
    $ sed -n '/^    version 2 variables 0$/,/^    HALT$/s/^    //p' "$TOP/docs/BYTECODE.md" > listing
    $ depot assemble listing out
    wrote 87 octets
    $ depot disassemble out
    version 2
    variables 0
    string "abc"
    string "x"
    0 EACH c 6 ; A0+1
    1 LIT ; "abc" ; A1+1
    2 PARTBODY a 1 c 1 ; a contains casemap ; A1+1 B1+4
    3 JF c 6 ; to 6 ; A1+1
    4 LIT c 1 ; "x" ; A1+1
    5 STORE ; A1+2
    6 NEXT ; A1+1
    7 HALT ; A0+1
    ; A0=2 B0=0 A1=7 B1=4 A2=0 B2=0 A3=0 B3=0 by chains

## what the instructions of all examples add, and the sums
    $ cat > sums << 'END'
    > { for (i = NF; i > 1 && split($i, part, "+") == 2; i--) sum[part[1]] += part[2] }
    > /^; A0=/ { for (i = 2; i <= 9; i++) { split($i, want, "="); print (sum[want[1]] + 0 == want[2]) ? "same" : "differs" } }
    > END
    $ for name in examples/*.sieve examples/gallery/*.sieve; do depot compile "$name" out > said && depot disassemble out | awk -f sums; done | sort -u
    same
    $ rm -f said sums

## a program without an instruction
    $ printf 'version 1 variables 0' > listing
    $ depot assemble listing out
    wrote 15 octets
    $ depot disassemble out
    version 1
    variables 0
    ; refused 23 End at 0

## octets that are no operation, and fields that are none
    $ printf 'SVBC\1\0\1\0\0\0\1\0\0\0\2' > program
    $ printf '\0\4a"\\\377' >> program
    $ printf '\377\1\0\2\0\0\0\3' >> program
    $ printf '\2\0\0\0\0\0\0\1' >> program
    $ depot disassemble program
    version 1
    variables 1
    string "a\22\5c\ff"
    0 OP ff a 1 b 2 c 3
    1 LIT c 1 ; refused 21 Index
    ; refused 21 Index at 1
    $ depot disassemble program > listing
    $ depot assemble listing again
    wrote 37 octets
    $ cmp program again

## all examples, back again
    $ for name in examples/*.svbc; do depot disassemble "$name" > listing && depot assemble listing again > said && cmp "$name" again && head -c 5 said && echo; done | sort | uniq -c | sed 's/^ *[0-9]* //'
    wrote
    $ for name in examples/*.sieve examples/gallery/*.sieve; do depot compile "$name" one > said && depot disassemble one > listing && depot assemble listing two >> said && cmp one two; done
    $ rm -f said

## a long string, cut in the comment
    $ printf 'require "fileinto"; fileinto "0123456789012345678901234567890123456789x";' > script
    $ depot compile script out
    wrote 82 octets
    $ depot disassemble out
    version 2
    variables 0
    string "0123456789012345678901234567890123456789x"
    0 LIT ; "0123456789012345678901234567890123456789"... ; A0+1
    1 FILE ; A0+42
    2 HALT ; A0+1
    ; A0=44 B0=0 A1=0 B1=0 A2=0 B2=0 A3=0 B3=0 by chains

## octets that spell no program
    $ depot disassemble examples/invoice.eml
    2> refused 20 Spelling
    [1]

## a program that is too long
    $ head -c 4194305 "$FILES/largest" > program
    $ depot disassemble program
    2> refused 20 Spelling
    [1]

Listings by hand.

## labels and strings in lines
    $ cat > listing << 'END'
    > version 2 variables 0
    > number 50000
    >         SIZE
    >         JF c small    ; below, a label may be used before it stands
    >         LIT c "Large"
    >         FILE
    > label small
    >         HALT
    > END
    $ depot assemble listing out
    wrote 70 octets
    $ depot disassemble out
    version 2
    variables 0
    number 50000
    string "Large"
    0 SIZE ; 50000 ; A0+1
    1 JF c 4 ; to 4 ; A0+1
    2 LIT ; "Large" ; A0+1
    3 FILE ; A0+6
    4 HALT ; A0+1
    ; A0=10 B0=0 A1=0 B1=0 A2=0 B2=0 A3=0 B3=0 by chains
    $ depot run out examples/newsletter.eml
    fileinto "Large"
    charged 10 of 10

## the listings of the manual
    $ sed -n '/^    version 1$/,/^    ; A0/s/^    //p' "$TOP/docs/BYTECODE.md" > listing
    $ depot assemble listing out
    wrote 42 octets
    $ depot disassemble out | cmp - listing
    $ sed -n '/^    version 2 variables 0$/,/^    HALT$/s/^    //p' "$TOP/docs/BYTECODE.md" > listing
    $ depot assemble listing out
    wrote 87 octets
    $ depot verify out
    A0=2 B0=0 A1=7 B1=4 A2=0 B2=0 A3=0 B3=0 by chains
    $ printf '\nabc' > message
    $ depot run out message
    store "x" 0
    keep
    charged 25 of 29

## tests in words
    $ cat > listing << 'END'
    > version 2 variables 0
    >     LIT c "Content-Type" LIT c "name" LIT c ".exe"
    >     HEADER a contains below param b 1 c 1 params 1 keys
    >     JF c end
    >     KEEP
    > label end HALT
    > END
    $ depot assemble listing out
    wrote 97 octets
    $ depot disassemble out
    version 2
    variables 0
    string "Content-Type"
    string "name"
    string ".exe"
    0 LIT ; "Content-Type" ; A0+1
    1 LIT c 1 ; "name" ; A0+1
    2 LIT c 2 ; ".exe" ; A0+1
    3 HEADER a 145 b 1 c 65537 ; a contains casemap below param c 1 params 1 keys ; A0+1 B0+18
    4 JF c 6 ; to 6 ; A0+1
    5 KEEP ; A0+1
    6 HALT ; A0+1
    ; A0=7 B0=18 A1=0 B1=0 A2=0 B2=0 A3=0 B3=0 by chains

## the examples that no script says
    $ depot assemble examples/ladder.listing out
    wrote 188 octets
    $ depot verify out
    A0=28 B0=32 A1=0 B1=0 A2=0 B2=0 A3=0 B3=0 by chains
    $ depot run out examples/ticket.eml
    fileinto "Tickets"
    fileinto "Office"
    keep
    charged 223 of 117756
    $ depot run out examples/forwarded.eml
    fileinto "Office"
    keep
    charged 741 of 84540
    $ depot run out examples/newsletter.eml
    keep
    charged 999 of 2139772
    $ depot assemble examples/twice.listing out
    wrote 102 octets
    $ depot verify out
    A0=2 B0=0 A1=16785486 B1=0 A2=0 B2=0 A3=0 B3=0 by chains
    $ printf 'Content-Type: multipart/mixed; boundary=b\n\n' > message
    $ printf -- '--b\n\nabc\n--b\n\nabc\n--b\n\nabd\n--b--\n' >> message
    $ depot run out message
    store "Twice" 2
    keep
    charged 277 of 67141946
    $ depot run out examples/forwarded.eml
    keep
    charged 11843 of 67141946

## targets that lead back are assembled, and refused by the verifier
    $ printf 'version 1 variables 0 label again KEEP JMP c again HALT' > listing
    $ depot assemble listing out
    wrote 39 octets
    $ depot verify out
    2> refused 25 Jump at 1
    [1]

## blanks, comments, zeros before a number, no places, and fields in another order
    $ cat > listing << 'END'
    > version 2
    > variables 1
    > number 1048576
    > string "a\00a\22b"
    > 0 LIT ; "a\00a\22b"
    > 1 HEADER a 1 b 2 c 3 ; a contains casemap message value c 0 params 3 keys
    > 2 OP ff
    > END
    $ depot assemble listing out
    wrote 54 octets
    $ depot disassemble out
    version 2
    variables 1
    number 1048576
    string "a\00a\22b"
    0 LIT ; "a\00a\22b"
    1 HEADER a 1 b 2 c 3 ; a contains casemap message value c 0 params 3 keys
    2 OP ff ; refused 22 Form
    ; refused 22 Form at 2
    $ printf 'version 02 ; of two\n variables\t1 number 1048576 string\n"a\\00a\\22b" LIT a 0\r\n' > listing
    $ printf '1 HEADER c 003 a 1 b 2 OP FF' >> listing
    $ depot assemble listing other
    wrote 54 octets
    $ cmp out other

## words of tests, in any order, and some of them left out
    $ cat > listing << 'END'
    > version 1 variables 0 HEADER c 2 params 1 keys b 1 a matches octet part param
    > EXISTS a below b 1 STRING c 3 keys a is PARTBODY a octet c 1 keys
    > END
    $ depot assemble listing out
    wrote 47 octets
    $ depot disassemble out
    version 1
    variables 0
    0 HEADER a 142 b 1 c 131073 ; a matches octet part param c 2 params 1 keys
    1 EXISTS a 2 b 1 ; a below
    2 STRING c 3 ; a is casemap ; refused 22 Form
    3 PARTBODY a 4 c 1 ; a is octet
    ; refused 22 Form at 2
    $ depot disassemble out > listing
    $ depot assemble listing other
    wrote 47 octets
    $ cmp out other

## labels before and after they are used, two at a place, and one after the last instruction
    $ cat > listing << 'END'
    > version 1 variables 0 label start JT c end label two label again LIT c 7
    > JF c two JMP c start EACH c again label end
    > END
    $ depot assemble listing out
    wrote 55 octets
    $ depot disassemble out
    version 1
    variables 0
    0 JT c 5
    1 LIT c 7 ; refused 21 Index
    2 JF c 1 ; to 1
    3 JMP ; to 0
    4 EACH c 1
    ; refused 21 Index at 1

## strings in the places of numbers: listed ones, one of them twice, and new ones
    $ cat > listing << 'END'
    > version 1 variables 0 string "a" string "b" string "a" LIT c "b"
    > LIT c "new" LIT c "a" LIT c "new" LIT c "\4e"
    > END
    $ depot assemble listing out
    wrote 72 octets
    $ depot disassemble out
    version 1
    variables 0
    string "a"
    string "b"
    string "a"
    string "new"
    string "N"
    0 LIT c 1 ; "b"
    1 LIT c 3 ; "new"
    2 LIT ; "a"
    3 LIT c 3 ; "new"
    4 LIT c 4 ; "N" ; refused 23 End
    ; refused 23 End at 4

## from standard input
    $ printf 'version 1 variables 0 KEEP HALT' | depot assemble /dev/stdin out
    wrote 31 octets
    $ cmp out examples/keep.svbc

Faults of listings.

## a word that is no operation
    $ printf 'version 1\nvariables 0\nKEEP\nDISCRAD ; a typing error\nHALT\n' > listing
    $ depot assemble listing out
    listing:4:1: error: `DISCRAD` isn't allowed here: the version and the variables are followed by numbers, strings, and then instructions with their fields
      DISCRAD ; a typing error
      ^
    2> refused 28 Listing at 27
    [1]

## a word that says nothing of a test
    $ printf 'version 1\nvariables 0\nHEADER a contain b 1 c 1\nHALT\n' > listing
    $ depot assemble listing out
    listing:3:10: error: `contain` isn't allowed here: the version and the variables are followed by numbers, strings, and then instructions with their fields
      HEADER a contain b 1 c 1
               ^
    2> refused 28 Listing at 31
    [1]

## a label that is there twice
    $ printf 'version 1 variables 0\nlabel a KEEP\nlabel a HALT\n' > listing
    $ depot assemble listing out
    listing:3:7: error: the label `a` is defined a second time
      label a HALT
            ^
    2> refused 28 Listing at 41
    [1]

## a label that is missing
    $ printf 'version 1 variables 0\nJMP c there\nHALT\n' > listing
    $ depot assemble listing out
    listing:2:7: error: `there` is neither a number nor a label of this listing
      JMP c there
            ^
    2> refused 28 Listing at 28
    [1]

## a string without its end
    $ printf 'version 1 variables 0\nstring "a' > listing
    $ depot assemble listing out
    listing:2:8: error: no string is allowed here, or this one is never closed, too long, or has a backslash without two hexadecimal digits
      string "a
             ^
    2> refused 28 Listing at 29
    [1]

## an empty file
    $ depot assemble /dev/null out
    /dev/null:1:1: error: the listing ends before its program is complete
    1>   
      ^
    2> refused 28 Listing at 0
    [1]

## the places of faults
    $ cat > listings << 'END'
    > version 3
    > version 1 variables 129
    > version 1 variables 0 LIT d 1
    > version 1 variables 0 LIT a 256
    > version 1 variables 0 LIT a 1 a 1
    > version 1 variables 0 1 LIT
    > version 1 variables 0 string "a\0g"
    > version 1 variables 0 lit
    > version 1 variables 0 LIT a is
    > version 1 variables 0 HEADER a part is
    > version 1 variables 0 HEADER c 65536 params 1 keys
    > version 1 ; variables 0
    > END
    $ while read -r line; do printf %s "$line" > listing; depot assemble listing out 2>&1 > said; done < listings
    refused 28 Listing at 8
    refused 28 Listing at 20
    refused 28 Listing at 26
    refused 28 Listing at 28
    refused 28 Listing at 30
    refused 28 Listing at 22
    refused 28 Listing at 29
    refused 28 Listing at 22
    refused 28 Listing at 28
    refused 28 Listing at 36
    refused 28 Listing at 37
    refused 28 Listing at 23
    [1]
    $ rm said

## the places of faults of labels
    $ cat > listings << 'END'
    > version 1 variables 0 label 1a HALT
    > version 1 variables 0 JMP c x label a label a
    > version 1 variables 0 JMP c x label a JT c y
    > version 1 variables 0 JMP c x label a lit
    > END
    $ while read -r line; do printf %s "$line" > listing; depot assemble listing out 2>&1 > said; done < listings
    refused 28 Listing at 28
    refused 28 Listing at 44
    refused 28 Listing at 28
    refused 28 Listing at 38
    [1]
    $ rm said

## a script
    $ depot assemble examples/pager.sieve out | sed -n 1p | cut -c 1-36
    examples/pager.sieve:1:1: error: `#`
    2> refused 28 Listing at 0

## a listing that is refused makes no file, and leaves one that is there
    $ printf old > out
    $ printf 'version 3' > listing
    $ depot assemble listing out > said
    2> refused 28 Listing at 8
    [1]
    $ cat out
    old
    [no line break]
    $ rm said

## not onto its listing
    $ printf 'version 1 variables 0 HALT' > listing
    $ ln -s listing other
    $ depot assemble listing other
    2> refused 45 Write
    [1]
    $ cat listing && rm other
    version 1 variables 0 HALT
    [no line break]

## as many instructions as there may be, and one more
    $ { echo version 1 variables 0; yes HALT | head -n 65536; } > listing
    $ depot assemble listing out
    wrote 524303 octets
    $ depot disassemble out | grep -c HALT
    65536
    $ { echo version 1 variables 0; yes HALT | head -n 65537; } > listing
    $ depot assemble listing out
    listing:65539:1: error: the program exceeds the limits for programs
    1>   
      ^
    2> refused 28 Listing at 327707
    [1]

## as many labels as there may be, each used far from its place
    $ awk 'BEGIN { print "version 1 variables 0"; for (i = 0; i < 65536; i++) printf "label n%05d JMP c n%05d\n", i, 65535 - i }' > listing
    $ depot assemble listing out
    wrote 524303 octets
    $ depot disassemble out | awk '$2 == "JMP" { n++; if (($3 == "c" ? $4 : 0) != 65535 - $1) print } END { print n }'
    65536

## as many bytes as there may be, and one more
    $ { echo 'version 1 variables 0'; yes "string \"$(printf %016384d 0)\"" | head -n 255; printf 'string "%015849d"\nHALT\n' 0; } > listing
    $ depot assemble listing out
    wrote 4194304 octets
    $ depot disassemble out | grep -c '^string'
    256
    $ depot verify out
    A0=1 B0=0 A1=0 B1=0 A2=0 B2=0 A3=0 B3=0
    $ { cat out; printf '\0'; } > longer
    $ depot verify longer
    2> refused 20 Spelling
    [1]
    $ sed -i '257s/"0/"00/' listing
    $ depot assemble listing out
    listing:259:1: error: the program exceeds the limits for programs
    1>   
      ^
    2> refused 28 Listing at 4196357
    [1]

## a listing that is as large as may be, and one that is too large
    $ { echo 'version 1 variables 0 HALT'; yes ' ' | head -c 67108837; } > listing
    $ depot assemble listing out
    wrote 23 octets
    $ depot assemble "$FILES/too-large" out
    2> refused 2 MessageTooLarge
    [1]

## 4 MB of one string's places
    $ { echo version 1 variables 0; printf 'string "%16384s"\n' ''; yes LIT | head -n 65535; echo HALT; } > listing
    $ depot assemble listing out
    wrote 540689 octets
    $ depot disassemble out | wc -c
    3806393

The program of a user.

## a filter, given back
    $ depot script mail.depot ann examples/documents.sieve
    stored
    $ depot program mail.depot ann out
    wrote 129 octets
    $ cmp out examples/documents.svbc
    $ depot code mail.depot bob out
    stored

## a user without a filter
    $ depot deliver mail.depot ann examples/invoice.eml
    1 message "INBOX"
    $ depot program mail.depot ann out
    2> refused 40 NoSuchEntry
    [1]
    $ test -e out
    [1]

## a name that is no user's
    $ depot program mail.depot Ann out
    2> refused 44 UserName
    [1]
    $ test -s mail.depot

## never over the depot
    $ depot script mail.depot ann examples/documents.sieve
    stored
    $ ln -s mail.depot other
    $ depot program mail.depot ann other
    2> refused 45 Write
    [1]
    $ rm other
    $ depot list mail.depot ann
    none

## never over the files beside the depot
    $ depot script mail.depot ann examples/documents.sieve
    stored
    $ depot program mail.depot ann mail.depot-wal
    2> refused 45 Write
    [1]
    $ depot program mail.depot ann mail.depot-shm
    2> refused 45 Write
    [1]
    $ depot program mail.depot ann mail.depot-journal
    2> refused 45 Write
    [1]

By another path, by a link to the depot, and by one to the name.

    $ depot program mail.depot ann ./mail.depot-journal
    2> refused 45 Write
    [1]
    $ mkdir folder; ln -s ../mail.depot folder/box; ln -s ../mail.depot-wal folder/out
    $ depot program folder/box ann mail.depot-journal
    2> refused 45 Write
    [1]
    $ depot program mail.depot ann folder/out
    2> refused 45 Write
    [1]

Nor over those beside another depot.

    $ depot list other.depot ann
    none
    $ for out in other.depot-wal other.depot-shm other.depot-journal; do depot program mail.depot ann $out; echo "$?"; done
    1
    1
    1
    2> refused 45 Write
    2> refused 45 Write
    2> refused 45 Write
    $ depot list other.depot ann
    none

The same names in another folder are those of any file.

    $ depot program mail.depot ann folder/mail.depot-journal
    wrote 129 octets
    $ rm -r folder
    $ depot list mail.depot ann
    none

## into no folder
    $ depot script mail.depot ann examples/documents.sieve
    stored
    $ depot program mail.depot ann missing/out
    2> refused 45 Write
    [1]
