# The scripts and programs of examples on its messages; docs/GUIDE.md and docs/BYTECODE.md show more of them

## discard large
    $ depot eval examples/discard-large.sieve examples/newsletter.eml
    none
    charged 4 of 4

## pager
    $ depot eval examples/pager.sieve examples/forwarded.eml
    keep
    charged 5 of 6

## pager large
    $ depot eval examples/pager.sieve examples/invoice.eml
    none
    charged 6 of 6

## intake
    $ depot eval examples/intake.sieve examples/invoice.eml
    keep
    charged 6 of 10

## sort newsletter
    $ depot eval examples/sort.sieve examples/newsletter.eml
    fileinto "Lists"
    charged 116 of 5683739

## sort invoice
    $ depot eval examples/sort.sieve examples/invoice.eml
    fileinto "Bills"
    charged 860 of 1629154

## sort forwarded
    $ depot eval examples/sort.sieve examples/forwarded.eml
    keep
    charged 1880 of 224529

## lists newsletter
    $ depot eval examples/lists.sieve examples/newsletter.eml
    fileinto "Lists/Weekly"
    charged 887 of 2962676

## lists invoice
    $ depot eval examples/lists.sieve examples/invoice.eml
    keep
    charged 603 of 863832

## attachments newsletter
    $ depot eval examples/attachments.sieve examples/newsletter.eml
    keep
    charged 4774 of 16716798

## attachments invoice
    $ depot eval examples/attachments.sieve examples/invoice.eml
    fileinto "Bills"
    charged 8806 of 4791548

## documents newsletter
    $ depot eval examples/documents.sieve examples/newsletter.eml
    keep
    charged 872 of 5817479

## documents invoice
    $ depot eval examples/documents.sieve examples/invoice.eml
    store "Documents" 4
    keep
    charged 1524 of 2779152

## documents forwarded
    $ depot eval examples/documents.sieve examples/forwarded.eml
    keep
    charged 1195 of 306422

## tickets ticket
    $ depot eval examples/tickets.sieve examples/ticket.eml
    store "Tickets/4711/printer.log" 4
    store "Tickets/4711/contract 2025.pdf" 5
    keep
    charged 2171 of 2321097

## tickets invoice
    $ depot eval examples/tickets.sieve examples/invoice.eml
    keep
    charged 302 of 9765064

## blocklist newsletter
    $ depot eval examples/blocklist.sieve examples/newsletter.eml
    keep
    charged 9192 of 15070517

## blocklist invoice
    $ depot eval examples/blocklist.sieve examples/invoice.eml
    store "Attachments" 4
    keep
    charged 9383 of 7229652

## garden newsletter
    $ depot eval examples/garden.sieve examples/newsletter.eml
    fileinto "Garden"
    charged 2664 of 6486134

## garden invoice
    $ depot eval examples/garden.sieve examples/invoice.eml
    keep
    charged 507 of 1859137

## garden forwarded
    $ depot eval examples/garden.sieve examples/forwarded.eml
    fileinto "Forwarded"
    keep
    charged 491 of 256212

## what is made of parts isn't stored whole
    $ cat > nested << 'END'
    > # a mail of parts within each other, each with the header $2, and a form in the innermost: nested STEPS HEADER
    > step=10
    > while [ $step -lt $((10 + $1)) ]; do
    >     printf "$2" $step $step
    >     step=$((step + 1))
    > done
    > printf 'Content-Type: text/plain; name=a.pdf\nContent-Disposition: attachment; filename=form.txt\n\nTicket [4711]\n%20000d\n' 0
    > END
    $ attached='Subject: [#1] invoice\nContent-Disposition: attachment; filename=a.pdf\n'
    > sh nested 31 "${attached}Content-Type: multipart/mixed; boundary=b%d\n\n--b%d\n" > multiparts
    > sh nested 31 "${attached}Content-Type: multipart/mixed; boundary=b%d\nContent-Type: text/calendar; method=a\n\n--b%d\n" > twice
    > sh nested 31 "${attached}Content-Type: message/rfc822\nX-Step: %d %d\n\n" > messages
    > sh nested 15 "Subject: [#1] invoice\nContent-Type: multipart/digest; boundary=b%d\n\n--b%d\n$attached\n" > digests
    $ for mail in multiparts twice messages digests; do
    >     depot parts $mail | wc -l
    >     for name in blocklist tickets gallery/attachments gallery/forms gallery/invoices gallery/invitations; do
    >         echo "$mail, $name: $(depot eval examples/$name.sieve $mail | grep -c ^store)"
    >     done
    > done
    32
    multiparts, blocklist: 1
    multiparts, tickets: 1
    multiparts, gallery/attachments: 1
    multiparts, gallery/forms: 1
    multiparts, gallery/invoices: 1
    multiparts, gallery/invitations: 0
    32
    twice, blocklist: 1
    twice, tickets: 1
    twice, gallery/attachments: 1
    twice, gallery/forms: 1
    twice, gallery/invoices: 1
    twice, gallery/invitations: 0
    32
    messages, blocklist: 1
    messages, tickets: 1
    messages, gallery/attachments: 1
    messages, gallery/forms: 1
    messages, gallery/invoices: 1
    messages, gallery/invitations: 0
    31
    digests, blocklist: 1
    digests, tickets: 1
    digests, gallery/attachments: 1
    digests, gallery/forms: 1
    digests, gallery/invoices: 1
    digests, gallery/invitations: 0

A part that says nothing of its type is a message where it is directly inside a multipart/digest, so one without Content-Type isn't
stored either. `documents.sieve` is kept short, and asks for one type alone: a part that has two Content-Types, a multipart by the
first, is stored by it.

## two types of one part
    $ cat > mail << 'END'
    > Content-Type: multipart/mixed; boundary=b
    > Content-Type: application/pdf
    >
    > --b
    > Content-Type: application/pdf
    >
    > %PDF-1.4
    > --b--
    > END
    $ depot eval examples/documents.sieve mail
    store "Documents" 0
    store "Documents" 1
    keep
    charged 867 of 7226

Budgets, and what programs do.

## budgets of the scripts
    $ for script in examples/*.sieve; do depot compile $script out > said; echo "$(basename $script .sieve): $(depot verify out)"; done
    attachments: A0=48 B0=250 A1=0 B1=0 A2=0 B2=0 A3=0 B3=0 by chains
    blocklist: A0=2 B0=0 A1=8480 B1=75 A2=0 B2=0 A3=0 B3=0 by chains
    discard-large: A0=4 B0=0 A1=0 B1=0 A2=0 B2=0 A3=0 B3=0 by chains
    documents: A0=2 B0=0 A1=16 B1=29 A2=0 B2=0 A3=0 B3=0 by chains
    garden: A0=35 B0=97 A1=0 B1=0 A2=0 B2=0 A3=0 B3=0 by chains
    intake: A0=10 B0=0 A1=0 B1=0 A2=0 B2=0 A3=0 B3=0 by chains
    lists: A0=20528 B0=44 A1=0 B1=0 A2=0 B2=0 A3=0 B3=0 by chains
    pager: A0=6 B0=0 A1=0 B1=0 A2=0 B2=0 A3=0 B3=0 by chains
    sort: A0=44 B0=85 A1=0 B1=0 A2=0 B2=0 A3=0 B3=0 by chains
    tickets: A0=4104 B0=15 A1=16426 B1=98 A2=0 B2=0 A3=0 B3=0 by chains
    $ depot verify examples/documents.svbc
    A0=2 B0=0 A1=16 B1=29 A2=0 B2=0 A3=0 B3=0 by chains
    $ depot verify examples/endless.svbc
    2> refused 25 Jump at 0
    [1]
    $ depot run examples/invoice.eml examples/invoice.eml
    2> refused 20 Spelling
    [1]

## a program step by step
    $ depot trace examples/discard-large.svbc examples/invoice.eml
    0 SIZE | 1 1 | no
    1 JF c 3 | 1 2 | no
    3 HALT | 1 3
    keep
    charged 3 of 4

## code of small scripts
    $ echo 'if not size :over 10 { discard; } else { keep; }' > script
    $ depot compile script out
    wrote 71 octets
    $ depot disassemble out
    version 2
    variables 0
    number 10
    0 SIZE ; 10 ; A0+1
    1 JT c 4 ; to 4 ; A0+1
    2 DISCARD ; A0+1
    3 JMP c 5 ; to 5 ; A0+1
    4 KEEP ; A0+1
    5 HALT ; A0+1
    ; A0=6 B0=0 A1=0 B1=0 A2=0 B2=0 A3=0 B3=0 by chains
    $ echo 'require ["foreverypart", "vnd.depot"]; foreverypart { if partsize :over 10 { break; } store "a"; }' > script
    $ depot compile script out
    wrote 90 octets
    $ depot disassemble out
    version 2
    variables 0
    number 10
    string "a"
    0 EACH c 6 ; A0+1
    1 PARTSIZE ; 10 ; A1+1
    2 JF c 4 ; to 4 ; A1+1
    3 BREAK a 1 ; A1+1
    4 LIT ; "a" ; A1+1
    5 STORE ; A1+2
    6 NEXT ; A1+1
    7 HALT ; A0+1
    ; A0=2 B0=0 A1=7 B1=0 A2=0 B2=0 A3=0 B3=0 by chains

## a message and a text from standard input
    $ depot eval examples/documents.sieve /dev/stdin < examples/invoice.eml
    store "Documents" 4
    keep
    charged 1524 of 2779152
    $ printf 'Zm9v!YmFy' | depot decode base64-mime
    foobar
    [no line break]

## one depot through its commands
    $ depot script mail.depot ann examples/documents.sieve
    stored
    $ depot deliver mail.depot ann examples/invoice.eml
    1 part "Documents"
    2 message "INBOX"
    $ depot list mail.depot ann
    1 part "Documents" "rechnung-2026-0417.pdf" application/pdf 9016
    2 message "INBOX" "" message/rfc822 19165
    $ depot export mail.depot ann 1 raw | sha256sum
    80f8df41adb207ae3eceb0df7cfcf10bdd1d48d1b19423f1f5a03d9b6f7db81e  -
    $ depot remove mail.depot ann 2
    removed 2
    $ depot export mail.depot ann 2 raw
    2> refused 40 NoSuchEntry
    [1]
    $ depot program mail.depot ann filter.svbc
    wrote 129 octets
    $ cmp filter.svbc examples/documents.svbc
    $ depot code mail.depot bob examples/keep.svbc
    stored
    $ depot migrate mail.depot
    migrated 1
    $ depot inspect mail.depot | sed 's/^log [0-9]*/log N/'
    depot
    log N octets
    user "ann" last 2 entries 1 octets 9016 program accepted version 2
    user "bob" last 0 entries 0 octets 0 program accepted version 2
    contents 1 octets 9016
    $ printf 'deliver bob examples/invoice.eml\nremove bob 7\n' | depot batch mail.depot
    1 message "INBOX"
    = 0
    refused 40 NoSuchEntry
    = 1

Mistakes that docs/GUIDE.md lists.

## the user before the file, and a file that isn't there
    $ depot deliver ann mail.depot examples/invoice.eml
    1 message "INBOX"
    $ depot inspect ann | sed 's/^log [0-9]*/log N/'
    depot
    log N octets
    user "mail.depot" last 1 entries 1 octets 19165 program none
    contents 1 octets 19165
    $ depot inspect mial.depot; test ! -e mial.depot
    no depot: there is no such file

## the mail before the script, and a script for its program
    $ depot eval examples/invoice.eml examples/sort.sieve
    2> refused 11 Lexical at 6
    [1]
    $ depot run examples/documents.sieve examples/invoice.eml
    2> refused 20 Spelling
    [1]
    $ depot explain examples/invoice.eml 2> refused | tail -n 1; depot explain examples/documents.svbc 2>> refused | tail -n 1
    examples/invoice.eml: note: the file begins with a header field, like a mail: is it a script?
    examples/documents.svbc: note: the file begins like a compiled program: `depot disassemble` prints the instructions of one
    $ rm refused
    $ depot parts - < examples/invoice.eml
    2> refused 46 Read
    [1]

## a folder whose name is empty
    $ echo 'require ["variables", "fileinto"]; if header :matches "Subject" "*" { fileinto "${2}"; }' > script
    $ depot script mail.depot ann script
    stored
    $ depot deliver mail.depot ann examples/invoice.eml
    1 message ""
    $ depot list mail.depot ann
    1 message "" "" message/rfc822 19165

## what filters can charge and file at most on a mail of 25 MB in 100 parts
    $ cat > greedy.sieve << 'END'
    > require ["foreverypart", "mime", "fileinto"];
    > foreverypart { foreverypart { foreverypart {
    >     if header :mime :anychild :matches "Subject" "*a*b*c*d*" { fileinto "Found"; }
    > } } }
    > END
    $ depot compile greedy.sieve out && depot verify out && depot limit out 25000000 100
    wrote 146 octets
    A0=2 B0=0 A1=2 B1=0 A2=2 B2=0 A3=12 B3=18 by chains
    charge 72765004861102
    entries 161701
    octets 25000000
    $ for filter in quarantine newsletters invoices; do depot compile examples/gallery/$filter.sieve out > said; depot limit out 25000000 100; done
    charge 846802
    entries 101
    octets 25000000
    charge 1350012381
    entries 3
    octets 25000000
    charge 313325015248
    entries 102
    octets 825000000
