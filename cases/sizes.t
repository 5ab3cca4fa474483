# Inputs that are as large as may be, and larger

Scripts.

## check of the longest script
    $ printf '%65536s' '' > spaces
    $ depot check spaces
    ok

## check of a script that is too long
    $ printf '%65537s' '' > spaces
    $ depot check spaces
    2> refused 12 ScriptTooLong
    [1]

## check of a file that is too large
    $ depot check "$FILES/too-large"
    2> refused 2 MessageTooLarge
    [1]

## explain of the longest script

10,922 lines of six octets, and four more.

    $ { yes 'keep;' | head -n 10922; printf '    '; } > script
    $ depot explain script
    ok

## explain of a fault at the end of the longest script

Each line has two tokens.

    $ { yes 'keep;' | head -n 10922; printf 'kep;'; } > script
    $ depot explain script
    script:10923:1: error: unknown command `kep`, did you mean `keep`?
      kep;
      ^
    2> refused 15 UnknownCommand at 21844
    [1]

## a program of many strings, compiled and assembled

3,001 strings of four octets with two for their length, 6,003 instructions of eight, and 15 octets before them.

    $ { echo 'require "fileinto";'; seq 1000 4000 | sed 's/.*/fileinto "&";/'; } > script
    $ depot compile script out
    wrote 66045 octets
    $ depot disassemble out > listing
    $ grep -c '^string' listing
    3001
    $ depot assemble listing again
    wrote 66045 octets
    $ cmp out again

## explain of a script that is too long
    $ printf '%65537s' '' > spaces
    $ depot explain spaces > /dev/null
    2> refused 12 ScriptTooLong
    [1]

## explain of a file that is too large
    $ depot explain "$FILES/too-large"
    2> refused 2 MessageTooLarge
    [1]

## compile of a file that is too large
    $ depot compile "$FILES/too-large" out
    2> refused 2 MessageTooLarge
    [1]

Programs and messages: what is too large is refused before anything else is read.

## run on the longest message
    $ depot run examples/keep.svbc "$FILES/largest"
    keep
    charged 2 of 2

## run on a message that is too large
    $ depot run examples/keep.svbc "$FILES/too-large"
    2> refused 2 MessageTooLarge
    [1]

## run of a program that is too large
    $ depot run "$FILES/too-large" "$FILES/too-large"
    2> refused 2 MessageTooLarge
    [1]

## run of a program that is too large, on a missing message
    $ depot run "$FILES/too-large" missing
    2> refused 2 MessageTooLarge
    [1]

## eval of a script that is too large, on a missing message
    $ depot eval "$FILES/too-large" missing
    2> refused 2 MessageTooLarge
    [1]

## parts of the longest message
    $ depot parts "$FILES/largest"
    0 1 text/plain 0 e3b0c44298fc1c149afbf4c8996fb92427ae41e4649b934ca495991b7852b855

## parts of a message that is too large
    $ depot parts "$FILES/too-large"
    2> refused 2 MessageTooLarge
    [1]

## deliver of the largest message
    $ depot deliver mail.depot ann "$FILES/largest"
    1 message "INBOX"
    $ depot list mail.depot ann
    1 message "INBOX" "" message/rfc822 67108864

## deliver of a message that is too large
    $ depot deliver mail.depot Ann "$FILES/too-large"
    2> refused 2 MessageTooLarge
    [1]

## encode of too many octets
    $ depot encode base64 < "$FILES/too-large"
    2> refused 2 MessageTooLarge
    [1]

## decode of too many octets
    $ depot decode base64 < "$FILES/too-large"
    2> refused 2 MessageTooLarge
    [1]

Parts.

## parts of as many parts as may be
    $ depot parts "$FILES/most-parts" > listed
    $ head -n 1 listed
    0 1 multipart/mixed 16380 7e47de0f191d60d7f3a0a4023827db971998f1f0cef5be9a20f3c9b8af3da562
    $ awk 'BEGIN { for (n = 1; n < 4096; n++) print n " 2 text/plain 0 e3b0c44298fc1c149afbf4c8996fb92427ae41e4649b934ca495991b7852b855" }' > others
    $ sed 1d listed | cmp - others

## parts of too many parts
    $ depot parts "$FILES/too-many-parts"
    2> refused 3 TooManyParts
    [1]

## run on as many parts as may be
    $ depot run examples/keep.svbc "$FILES/most-parts"
    keep
    charged 2 of 2

## run on too many parts
    $ depot run examples/keep.svbc "$FILES/too-many-parts"
    2> refused 3 TooManyParts
    [1]

## eval on too many parts
    $ depot eval examples/pager.sieve "$FILES/too-many-parts"
    2> refused 3 TooManyParts
    [1]

## deliver of too many parts
    $ depot deliver mail.depot ann "$FILES/too-many-parts"
    2> refused 3 TooManyParts
    [1]
    $ depot deliver mail.depot An "$FILES/too-many-parts"
    2> refused 44 UserName
    [1]
    $ depot list mail.depot ann
    none
