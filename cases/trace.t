# trace: what a script asks and does, event by event, and then what eval prints

Kinds of events.

## an empty script
    $ : > script
    $ printf x > message
    $ depot trace script message
    keep
    charged 1 of 1

## a test and an action
    $ printf 'require "fileinto";\nif header :contains "subject" "bill" {\n  fileinto "Bills";\n} else {\n  discard;\n}\n' > script
    $ printf 'Subject: the bill\n\n' > message
    $ depot trace script message
    script:2:4: header yes "the bill" contains "bill"
    script:3:3: fileinto "Bills"
    fileinto "Bills"
    charged 74 of 274
    $ printf 'Subject: other\n\n' > message
    $ depot trace script message
    script:2:4: header no, 1 value
    script:5:3: discard
    none
    charged 52 of 235

## tests of other tests stop as they do, and are told behind those that were asked
    $ printf 'if allof (true, not true, exists "a") { keep; } elsif anyof (false, size :under 1K, true) { stop; }\nkeep;\n' > script
    $ depot trace script /dev/null
    script:1:11: true yes
    script:1:21: true yes
    script:1:17: not no
    script:1:4: allof no
    script:1:62: false no
    script:1:69: size yes
    script:1:55: anyof yes
    script:1:93: stop
    keep
    charged 9 of 20

## variables
    $ printf 'require "variables";\nset :upper "A" "b";\nif string :matches "${a}c" "B?" { set "d" "${1}${a}"; }\n' > script
    $ depot trace script /dev/null
    script:2:1: set "a" "B"
    script:3:4: string yes "Bc" matches "B?"
    script:3:35: set "d" "cB"
    keep
    charged 29 of 32789

## a loop, and one within it
    $ printf 'require ["foreverypart", "vnd.depot"];\nforeverypart {\n  foreverypart { store "Parts"; break; }\n  break;\n}\n' > script
    $ depot trace script "$TOP/examples/invoice.eml"
    script:2:1: foreverypart part 0 multipart/mixed
    script:3:3: foreverypart part 1 multipart/alternative
    script:3:18: part 1 multipart/alternative store "Parts"
    script:3:33: part 1 multipart/alternative break 1
    script:4:3: part 0 multipart/mixed break 1
    store "Parts" 1
    keep
    charged 12 of 107
    $ depot trace script /dev/null
    script:2:1: foreverypart part 0 text/plain
    script:4:3: part 0 text/plain break 1
    keep
    charged 4 of 5

## a text that is long
    $ printf 'require "fileinto"; fileinto "%0100d";' 7 > script
    $ depot trace script /dev/null | sed -n 1p
    script:1:21: fileinto "00000000000000000000000000000000000000000000000000000000000000000000000000000000"..

## a name that can't be printed as it is
    $ printf 'keep;' > "$(printf 'a\tb')"
    $ depot trace "$(printf 'a\tb')" /dev/null; rm "$(printf 'a\tb')"
    a\09b:1:1: keep
    keep
    charged 2 of 2

Each kind of event, on a mail with two parts: its value or the number of values, and its place in the loops.

## scripts that ask nothing
    $ printf 'From: ann@example.org\nSubject: Invoice 12\nX-A: a\n b\nContent-Type: multipart/mixed; boundary=o\n\n--o\n\nhello\n--o\nContent-Type: application/pdf\n\nx\n--o--\n' > message
    $ printf '' > f.sieve
    $ depot trace f.sieve message
    keep
    charged 1 of 1
    $ printf 'keep;' > f.sieve
    $ depot trace f.sieve message
    f.sieve:1:1: keep
    keep
    charged 2 of 2

## tests of fields
    $ printf 'From: ann@example.org\nSubject: Invoice 12\nX-A: a\n b\nContent-Type: multipart/mixed; boundary=o\n\n--o\n\nhello\n--o\nContent-Type: application/pdf\n\nx\n--o--\n' > message
    $ printf 'require "fileinto";\nif header :contains "subject" "nvoi" {\n  fileinto "in\\"voices";\n} else {\n  keep;\n}\n' > f.sieve
    $ depot trace f.sieve message
    f.sieve:2:4: header yes "Invoice 12" contains "nvoi"
    f.sieve:3:3: fileinto "in\22voices"
    fileinto "in\22voices"
    charged 112 of 1968
    $ printf 'if header :is ["from", "x-b", "subject"] ["a", "b", "c"] { stop; }' > f.sieve
    $ depot trace f.sieve message
    f.sieve:1:4: header no, 2 values
    keep
    charged 256 of 5260
    $ printf 'if header "x-b" "a" { stop; }' > f.sieve
    $ depot trace f.sieve message
    f.sieve:1:4: header no, 0 values
    keep
    charged 25 of 906
    $ printf 'if header :matches ["from", "x-a"] ["x*", "A*", "*"] { stop; }' > f.sieve
    $ depot trace f.sieve message
    f.sieve:1:4: header yes "ann@example.org" matches "A*"
    f.sieve:1:56: stop
    keep
    charged 213 of 3759

## tests of a field's media type and parameters
    $ printf 'From: ann@example.org\nSubject: Invoice 12\nX-A: a\n b\nContent-Type: multipart/mixed; boundary=o\n\n--o\n\nhello\n--o\nContent-Type: application/pdf\n\nx\n--o--\n' > message
    $ printf 'require "mime";\nif header :mime :type "content-type" ["text", "multipart"] { stop; }' > f.sieve
    $ depot trace f.sieve message
    f.sieve:2:4: header yes "multipart" is "multipart"
    f.sieve:2:62: stop
    keep
    charged 221 of 4207
    $ printf 'require "mime";\nif header :mime :anychild :subtype "content-type" "PDF" { stop; }' > f.sieve
    $ depot trace f.sieve message
    f.sieve:2:4: header yes "pdf" is "PDF"
    f.sieve:2:59: stop
    keep
    charged 123 of 2556
    $ printf 'require "mime";\nif header :mime :anychild :type "content-type" "image" { stop; }' > f.sieve
    $ depot trace f.sieve message
    f.sieve:2:4: header no, 2 values
    keep
    charged 215 of 2856
    $ printf 'require "mime";\nif header :mime :anychild :contenttype :contains "content-type" "n/p" { stop; }' > f.sieve
    $ depot trace f.sieve message
    f.sieve:2:4: header yes "application/pdf" contains "n/p"
    f.sieve:2:73: stop
    keep
    charged 211 of 2556
    $ printf 'require "mime";\nif header :mime :param ["charset", "boundary"] "content-type" "o" { stop; }' > f.sieve
    $ depot trace f.sieve message
    f.sieve:2:4: header yes "o" is "o"
    f.sieve:2:69: stop
    keep
    charged 76 of 2558
    $ printf 'require "mime";\nif header :mime :param ["charset", "boundary"] "content-type" "x" { stop; }' > f.sieve
    $ depot trace f.sieve message
    f.sieve:2:4: header no, 1 value
    keep
    charged 76 of 2558

## tests of tests, with an else
    $ printf 'From: ann@example.org\nSubject: Invoice 12\nX-A: a\n b\nContent-Type: multipart/mixed; boundary=o\n\n--o\n\nhello\n--o\nContent-Type: application/pdf\n\nx\n--o--\n' > message
    $ printf 'if anyof (size :over 1M, exists "x-a", false) { discard; stop; }\nkeep;' > f.sieve
    $ depot trace f.sieve message
    f.sieve:1:11: size no
    f.sieve:1:26: exists yes
    f.sieve:1:4: anyof yes
    f.sieve:1:49: discard
    f.sieve:1:58: stop
    none
    charged 27 of 611
    $ printf 'if allof (true, not true, true) { stop; } elsif not false { keep; }' > f.sieve
    $ depot trace f.sieve message
    f.sieve:1:11: true yes
    f.sieve:1:21: true yes
    f.sieve:1:17: not no
    f.sieve:1:4: allof no
    f.sieve:1:53: false no
    f.sieve:1:49: not yes
    f.sieve:1:61: keep
    keep
    charged 8 of 12

## variables in tests and actions
    $ printf 'From: ann@example.org\nSubject: Invoice 12\nX-A: a\n b\nContent-Type: multipart/mixed; boundary=o\n\n--o\n\nhello\n--o\nContent-Type: application/pdf\n\nx\n--o--\n' > message
    $ printf 'require "variables";\nset :upper "A" "b";\nif string :matches "${a}c" "B?" { set "d" "${1}${a}"; }' > f.sieve
    $ depot trace f.sieve message
    f.sieve:2:1: set "a" "B"
    f.sieve:3:4: string yes "Bc" matches "B?"
    f.sieve:3:35: set "d" "cB"
    keep
    charged 29 of 32789
    $ printf 'require ["variables", "fileinto"];\nset "a" "Lists";\nif string :contains ["a", "bc", "cb"] ["x", "b"] { fileinto "${a}/b"; }\nif string ["", "a", "b"] "c" { stop; }' > f.sieve
    $ depot trace f.sieve message
    f.sieve:2:1: set "a" "Lists"
    f.sieve:3:4: string yes "bc" contains "b"
    f.sieve:3:52: fileinto "Lists/b"
    f.sieve:4:4: string no, 3 values
    fileinto "Lists/b"
    charged 81 of 8264

## loops that end, and loops that are left
    $ printf 'From: ann@example.org\nSubject: Invoice 12\nX-A: a\n b\nContent-Type: multipart/mixed; boundary=o\n\n--o\n\nhello\n--o\nContent-Type: application/pdf\n\nx\n--o--\n' > message
    $ printf 'require "foreverypart";\nforeverypart { keep; }' > f.sieve
    $ depot trace f.sieve message
    f.sieve:2:1: foreverypart part 0 multipart/mixed
    f.sieve:2:16: part 0 multipart/mixed keep
    f.sieve:2:1: foreverypart part 1 text/plain
    f.sieve:2:16: part 1 text/plain keep
    f.sieve:2:1: foreverypart part 2 application/pdf
    f.sieve:2:16: part 2 application/pdf keep
    keep
    charged 8 of 8
    $ printf 'require "foreverypart";\nforeverypart :name "a" { foreverypart { break :name "a"; } }' > f.sieve
    $ depot trace f.sieve message
    f.sieve:2:1: foreverypart part 0 multipart/mixed
    f.sieve:2:26: foreverypart part 1 text/plain
    f.sieve:2:41: part 1 text/plain break 2
    keep
    charged 4 of 14
    $ printf 'require "foreverypart";\nforeverypart { foreverypart { break; } break; }\nkeep;' > f.sieve
    $ depot trace f.sieve message
    f.sieve:2:1: foreverypart part 0 multipart/mixed
    f.sieve:2:16: foreverypart part 1 text/plain
    f.sieve:2:31: part 1 text/plain break 1
    f.sieve:2:40: part 0 multipart/mixed break 1
    f.sieve:3:1: keep
    keep
    charged 6 of 18

## tests and actions of the current part
    $ printf 'From: ann@example.org\nSubject: Invoice 12\nX-A: a\n b\nContent-Type: multipart/mixed; boundary=o\n\n--o\n\nhello\n--o\nContent-Type: application/pdf\n\nx\n--o--\n' > message
    $ printf 'require ["foreverypart", "vnd.depot"];\nforeverypart { foreverypart {\nif partbody :contains ["y", "EL"] { store "S"; }\nif partdigest ["a", "2d711642b726b04401627ca9fbac32f5c8530fb1903cc4db02258717921a4881"] { keep; }\n} break; }' > f.sieve
    $ depot trace f.sieve message
    f.sieve:2:1: foreverypart part 0 multipart/mixed
    f.sieve:2:16: foreverypart part 1 text/plain
    f.sieve:3:4: part 1 text/plain partbody yes "hello" contains "EL"
    f.sieve:3:37: part 1 text/plain store "S"
    f.sieve:4:4: part 1 text/plain partdigest no, 1 value
    f.sieve:2:16: foreverypart part 2 application/pdf
    f.sieve:3:4: part 2 application/pdf partbody no, 1 value
    f.sieve:4:4: part 2 application/pdf partdigest yes "2d711642b726b04401627ca9fbac32f5c8530fb1903cc4db02258717921a4881" is "2d711642b726b04401627ca9fbac32f5c8530fb1903cc4db02258717921a4881"
    f.sieve:4:91: part 2 application/pdf keep
    f.sieve:5:3: part 0 multipart/mixed break 1
    store "S" 1
    keep
    charged 8776 of 15365
    $ printf 'require ["foreverypart", "vnd.depot", "variables"];\nforeverypart { foreverypart { if partsize :over 3 { take :first 4 "v"; } } break; }' > f.sieve
    $ depot trace f.sieve message
    f.sieve:2:1: foreverypart part 0 multipart/mixed
    f.sieve:2:16: foreverypart part 1 text/plain
    f.sieve:2:34: part 1 text/plain partsize yes
    f.sieve:2:53: part 1 text/plain take "v" "hell"
    f.sieve:2:16: foreverypart part 2 application/pdf
    f.sieve:2:34: part 2 application/pdf partsize no
    f.sieve:2:76: part 0 multipart/mixed break 1
    keep
    charged 15 of 35

## a value that is cut, and bytes that can't be printed
    $ printf 'Subject: \303\251 "%090d\n\n' 0 | tr 0 a > message
    $ printf 'if header :matches "subject" "*\\"a*" {}' > f.sieve
    $ depot trace f.sieve message
    f.sieve:1:4: header yes "\c3\a9 \22aaaaaaaaaaaaaaaaaaaaaaaaaaaaaaaaaaaaaaaaaaaaaaaaaaaaaaaaaaaaaaaaaaaaaaaaaaaa".. matches "*\22a*"
    keep
    charged 496 of 1383

## a folder of 81 bytes
    $ printf 'require "fileinto"; fileinto "%081d";' 0 | tr 0 a > f.sieve
    $ depot trace f.sieve /dev/null
    f.sieve:1:21: fileinto "aaaaaaaaaaaaaaaaaaaaaaaaaaaaaaaaaaaaaaaaaaaaaaaaaaaaaaaaaaaaaaaaaaaaaaaaaaaaaaaa"..
    fileinto "aaaaaaaaaaaaaaaaaaaaaaaaaaaaaaaaaaaaaaaaaaaaaaaaaaaaaaaaaaaaaaaaaaaaaaaaaaaaaaaaa"
    charged 84 of 84

## a test of 40,000 values
    $ { yes 'A: b' | head -n 20000; echo; } > message
    $ printf 'if header ["a", "b", "a"] "c" {}' > f.sieve
    $ depot trace f.sieve message
    f.sieve:1:4: header no, 40000 values
    keep
    charged 280013 of 1200031

## a script of 5,000 commands
    $ yes 'keep;' | head -n 5000 > f.sieve
    $ depot trace f.sieve /dev/null > events
    $ sed -n '1,2p;5000,$p' events
    f.sieve:1:1: keep
    f.sieve:2:1: keep
    f.sieve:5000:1: keep
    keep
    charged 5001 of 5001

Refusals come before anything is told, and are those of eval.

## a script with a fault
    $ printf 'kep;' > script
    $ depot trace script /dev/null
    2> refused 15 UnknownCommand at 0
    [1]

## no file
    $ depot trace none /dev/null
    2> refused 46 Read
    [1]

## a writer that takes nothing
    $ printf 'keep;' > script
    $ depot trace script /dev/null > /dev/full
    2> refused 45 Write
    [1]
