# eval: what a script does with a message, and what it charges

`examples.t` and `gallery.t` have the scripts of the folder `examples`.

Actions.

## an empty script
    $ : > script
    $ : > message
    $ depot eval script message
    keep
    charged 1 of 1

## discard
    $ echo 'discard;' > script
    $ printf 0123456789 > message
    $ depot eval script message
    none
    charged 2 of 2

## keep twice
    $ echo 'keep; keep;' > script
    $ printf 0123456789 > message
    $ depot eval script message
    keep
    charged 3 of 3

## stop
    $ echo 'if true { stop; } discard;' > script
    $ printf x > message
    $ depot eval script message
    keep
    charged 3 of 5

## folder of lines
    $ printf 'require "fileinto"; fileinto text:\n..a\n.\n;' > script
    $ depot eval script /dev/null
    fileinto ".a\0a"
    charged 6 of 6

Sizes and tests of tests.

## size over
    $ echo 'if size :over 10 { discard; }' > script
    $ printf 0123456789 > message
    $ depot eval script message
    keep
    charged 3 of 4

## size under
    $ echo 'if size :under 10 { discard; }' > script
    $ printf 0123456789 > message
    $ depot eval script message
    keep
    charged 3 of 4

## tests of tests on four octets
    $ echo 'if anyof (false, allof (true, not size :over 3)) { discard; } else { keep; }' > script
    $ printf abcd > message
    $ depot eval script message
    keep
    charged 8 of 10

## tests of tests on an empty message
    $ echo 'if anyof (false, allof (true, not size :over 3)) { discard; } else { keep; }' > script
    $ : > message
    $ depot eval script message
    none
    charged 9 of 10

The header and variables.

## a field that contains a key
    $ echo 'require "fileinto"; if header :contains "Subject" "a" { fileinto "x"; }' > script
    $ printf 'Subject: a\r\n\r\n' > message
    $ depot eval script message
    fileinto "x"
    charged 28 of 158

## capture as folder
    $ echo 'require ["variables", "fileinto"]; if header :matches "Subject" "[*] *" { fileinto "${1}"; }' > script
    $ printf 'Subject: [acme] [fwd] x\r\n\r\n' > message
    $ depot eval script message
    fileinto "acme"
    charged 117 of 4495

## a variable that is not set
    $ echo 'require "variables"; if string "${a}" "" { discard; }' > script
    $ : > message
    $ depot eval script message
    none
    charged 7 of 4103

## modified value
    $ echo 'require ["variables", "fileinto"]; set :quotewildcard "a" "Rock*"; fileinto "${a}";' > script
    $ : > message
    $ depot eval script message
    fileinto "Rock\5c*"
    charged 16 of 4106

## reference begun twice
    $ echo 'require ["variables", "fileinto"]; set "company" "ACME"; fileinto "${BAD${Company}";' > script
    $ : > message
    $ depot eval script message
    fileinto "${BADACME"
    charged 29 of 8213

Loops over the parts. The messages are four messages inside of one another, or have one part.

## part body
    $ printf 'require ["foreverypart", "vnd.depot"]; foreverypart { if partbody :contains "bc" { store "h"; } }' > script
    $ printf '\nabc' > message
    $ depot eval script message
    store "h" 0
    keep
    charged 21 of 24

## stored part
    $ printf 'require ["foreverypart", "vnd.depot"]; foreverypart { store "att"; }' > script
    $ : > message
    $ depot eval script message
    store "att" 0
    keep
    charged 8 of 8

## loop in a loop
    $ printf 'require "foreverypart"; foreverypart { foreverypart { keep; } }' > script
    $ printf 'Content-Type: message/rfc822\n\n%.0s' 1 2 3 4 > message
    $ depot eval script message
    keep
    charged 32 of 32

## break in a loop
    $ printf 'require ["foreverypart", "vnd.depot"]; foreverypart :name "o" { foreverypart { break; } store "s"; }' > script
    $ printf 'Content-Type: message/rfc822\n\n%.0s' 1 2 3 4 > message
    $ depot eval script message
    store "s" 0
    store "s" 1
    store "s" 2
    store "s" 3
    store "s" 4
    keep
    charged 31 of 47

## break of a name
    $ printf 'require ["foreverypart", "vnd.depot"]; foreverypart :name "o" { foreverypart { break :name "o"; } store "s"; }' > script
    $ printf 'Content-Type: message/rfc822\n\n%.0s' 1 2 3 4 > message
    $ depot eval script message
    keep
    charged 4 of 47

## the same code in version 1 has a budget by powers of parts
    $ printf 'require "foreverypart"; foreverypart { foreverypart { keep; } }' > script
    $ printf 'Content-Type: message/rfc822\n\n%.0s' 1 2 3 4 > message
    $ depot compile script out
    wrote 63 octets
    $ printf '\1' | dd of=out bs=1 seek=4 conv=notrunc 2> /dev/null
    $ depot run out message
    keep
    charged 32 of 62
    $ depot verify out
    A0=2 B0=0 A1=2 B1=0 A2=2 B2=0 A3=0 B3=0

## a break in a loop, as version 1
    $ printf 'require ["foreverypart", "vnd.depot"]; foreverypart :name "o" { foreverypart { break; } store "s"; }' > script
    $ printf 'Content-Type: message/rfc822\n\n%.0s' 1 2 3 4 > message
    $ depot compile script out
    wrote 82 octets
    $ printf '\1' | dd of=out bs=1 seek=4 conv=notrunc 2> /dev/null
    $ depot run out message
    store "s" 0
    store "s" 1
    store "s" 2
    store "s" 3
    store "s" 4
    keep
    charged 31 of 77
    $ depot verify out
    A0=2 B0=0 A1=5 B1=0 A2=2 B2=0 A3=0 B3=0

## a break of a name, as version 1
    $ printf 'require ["foreverypart", "vnd.depot"]; foreverypart :name "o" { foreverypart { break :name "o"; } store "s"; }' > script
    $ printf 'Content-Type: message/rfc822\n\n%.0s' 1 2 3 4 > message
    $ depot compile script out
    wrote 82 octets
    $ printf '\1' | dd of=out bs=1 seek=4 conv=notrunc 2> /dev/null
    $ depot run out message
    keep
    charged 4 of 77
    $ depot verify out
    A0=2 B0=0 A1=5 B1=0 A2=2 B2=0 A3=0 B3=0

## text taken from a part
    $ printf 'require ["variables", "fileinto", "foreverypart", "vnd.depot"]; foreverypart { take :first 3 "v"; } fileinto "${v}";' > script
    $ printf '\nabcdef' > message
    $ depot eval script message
    fileinto "abc"
    charged 12 of 4105
    $ depot compile script out
    wrote 63 octets
    $ depot verify out
    A0=4100 B0=0 A1=5 B1=0 A2=0 B2=0 A3=0 B3=0 by chains

What is told first: both files are read, then the script is checked, then the message is taken apart.

## a fault is told of the longest message
    $ echo 'vacation;' > script
    $ depot eval script "$FILES/largest"
    2> refused 15 UnknownCommand at 0
    [1]

## a fault is told before too many parts
    $ echo 'vacation;' > script
    $ depot eval script "$FILES/too-many-parts"
    2> refused 15 UnknownCommand at 0
    [1]

## a message that is too large is told before a fault
    $ echo 'vacation;' > script
    $ depot eval script "$FILES/too-large"
    2> refused 2 MessageTooLarge
    [1]

## a missing message is told before a fault
    $ echo 'vacation;' > script
    $ depot eval script missing.eml
    2> refused 46 Read
    [1]
