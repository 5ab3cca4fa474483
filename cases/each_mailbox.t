# contrib/each_mailbox, which does one thing with each mailbox below a folder

## three mailboxes are made, get filters, and are looked at, copied, written as Maildirs and migrated
Only if: command -v flock # there is no flock
    $ printf '#!/bin/sh\nDEPOT=depot exec "$TOP/contrib/each_mailbox" "$@"\n' > e && chmod +x e && mkdir boxes
    $ printf '# addresses\n\nann@example.org yes\nBob@example.org\nann@two.example yes\n' | ./e boxes make
    boxes/example.org/ann.depot
    boxes/example.org/bob.depot
    boxes/two.example/ann.depot
    3 done, 0 failed
    $ mkdir -p filters/example.org filters/two.example && cp examples/documents.sieve filters/example.org/ann.sieve
    $ echo 'discard;' > filters/two.example/ann.sieve && ./e boxes store filters
    2 done, 0 failed
    $ for box in example.org/ann example.org/bob two.example/ann; do depot deliver boxes/$box.depot ${box#*/} examples/invoice.eml; done
    1 part "Documents"
    2 message "INBOX"
    1 message "INBOX"
    none
    $ ./e boxes look && ./e boxes copy copies && ./e boxes maildir mail && ./e boxes migrate
    3 done, 0 failed
    3 done, 0 failed
    3 done, 0 failed
    3 done, 0 failed
    $ find copies -type f | sort && stat -c %a copies copies/example.org copies/example.org/ann.depot
    copies/example.org/ann.depot
    copies/example.org/ann.depot-wal
    copies/example.org/bob.depot
    copies/example.org/bob.depot-wal
    copies/two.example/ann.depot
    copies/two.example/ann.depot-wal
    700
    700
    600
    $ depot list copies/example.org/ann.depot ann
    1 part "Documents" "rechnung-2026-0417.pdf" application/pdf 9016
    2 message "INBOX" "" message/rfc822 19165
    $ find mail -type f | sort
    mail/example.org/ann-parts/Documents/1-rechnung-2026-0417.pdf
    mail/example.org/ann/depot-ann
    mail/example.org/ann/new/2.depot-ann
    mail/example.org/bob/depot-bob
    mail/example.org/bob/new/1.depot-bob

A second run makes and changes nothing, a copy is not written over, and one filter goes to all.

    $ printf 'ann@example.org yes\n' | ./e boxes make && ./e boxes maildir mail && ./e boxes/two.example copy copies/two.example 2> said; sed "s,: /.*/copies,: copies," said
    boxes/example.org/ann.depot
    1 done, 0 failed
    3 done, 0 failed
    0 done, 1 failed
    each_mailbox: boxes/two.example/ann.depot: copies/two.example/ann.depot is there already
    $ echo 'keep;' > filter && ./e boxes store filter && depot deliver boxes/two.example/ann.depot ann examples/ticket.eml
    3 done, 0 failed
    1 message "INBOX"
    $ rm -r boxes copies mail filters

## what fails is named, and the others are done
Only if: command -v flock && command -v sqlite3 # there is no flock or no sqlite3
    $ printf '#!/bin/sh\nDEPOT=depot exec "$TOP/contrib/each_mailbox" "$@"\n' > e && chmod +x e && mkdir boxes
    $ printf 'ann@example.org\nann\nbob@example.org\n@example.org\ncarl@example.org\n' | ./e boxes make
    boxes/example.org/ann.depot
    boxes/example.org/bob.depot
    boxes/example.org/carl.depot
    3 done, 2 failed
    2> each_mailbox: ann: ann is no address of a user
    2> each_mailbox: @example.org: @example.org is no address of a user
    [65]
    $ mkdir -p filters/example.org && echo 'keep' > filters/example.org/ann.sieve && echo 'keep;' > filters/example.org/bob.sieve
    $ echo 'keep;' > filters/example.org/dora.sieve && mkdir filters/example.org/eve.sieve && mkfifo filters/example.org/fred.sieve && ./e boxes store filters
    1 done, 3 failed
    2> each_mailbox: filters/example.org/ann.sieve: refused 13 Syntax at 1
    2> each_mailbox: filters/example.org/dora.sieve: there is no file boxes/example.org/dora.depot
    2> each_mailbox: filters/example.org/fred.sieve: refused 46 Read: filters/example.org/fred.sieve: it is no regular file
    [65]
    $ sqlite3 boxes/example.org/bob.depot "UPDATE users SET program = x'00'" && echo damaged > boxes/example.org/ann.depot && ./e boxes look
    1 done, 2 failed
    2> each_mailbox: boxes/example.org/ann.depot: no depot: it is no database, or it is damaged
    2> each_mailbox: boxes/example.org/bob.depot: the filter of "bob" is refused 20 Spelling: store it again
    [65]
    $ ./e boxes migrate; ./e boxes maildir mail; ./e boxes store filters/example.org/bob.sieve; ./e boxes copy copies
    1 done, 2 failed
    2 done, 1 failed
    2 done, 1 failed
    3 done, 0 failed
    2> each_mailbox: boxes/example.org/ann.depot: refused 43 Database: it is no database, or it is damaged
    2> each_mailbox: boxes/example.org/bob.depot: refused 43 Database: the stored filter of bob is refused 20 Spelling: store it again
    2> each_mailbox: boxes/example.org/ann.depot: list "ann": refused 43 Database: it is no database, or it is damaged
    2> each_mailbox: boxes/example.org/ann.depot: refused 43 Database: it is no database, or it is damaged
    $ cmp boxes/example.org/ann.depot copies/example.org/ann.depot && rm -r boxes copies mail filters

## a folder that can't be made, a full output, and a program that says that it is done and isn't
Only if: command -v flock # there is no flock
    $ printf '#!/bin/sh\nDEPOT=${USED:-depot} exec "$TOP/contrib/each_mailbox" "$@"\n' > e && chmod +x e && mkdir boxes copies
    $ printf 'ann@example.org\nbob@two.example\ncarl@two.example\n' | ./e boxes make > /dev/full; echo $?; find boxes -name '*.depot' | sort
    74
    boxes/example.org/ann.depot
    boxes/two.example/bob.depot
    boxes/two.example/carl.depot
    2> each_mailbox: standard output can't be written; 3 done, 0 failed
    $ : > copies/two.example && for verb in copy maildir; do ./e boxes $verb copies 2> said; echo $?; sed "s,: /.*/copies,: copies," said; done
    1 done, 2 failed
    65
    each_mailbox: boxes/two.example/bob.depot: copies/two.example: File exists
    each_mailbox: boxes/two.example/carl.depot: copies/two.example: File exists
    1 done, 2 failed
    65
    each_mailbox: boxes/two.example/bob.depot: copies/two.example: File exists
    each_mailbox: boxes/two.example/carl.depot: copies/two.example: File exists
    $ echo 'keep;' > filter && printf '#!/bin/sh\nwhile read -r line; do printf "$SAID= 0\\n"; done\n' > liar && chmod +x liar
    $ USED=./liar SAID= ./e boxes/example.org store filter; USED=./liar SAID='no words\n' ./e boxes/example.org migrate
    0 done, 1 failed
    0 done, 1 failed
    2> each_mailbox: boxes/example.org/ann.depot: the program's answer is empty
    2> each_mailbox: boxes/example.org/ann.depot: no words
    [65]
    $ rm -r boxes copies

## a lock that is taken, and a program that does not answer
Only if: command -v flock # there is no flock
    $ printf '#!/bin/sh\nDEPOT=${USED:-depot} exec "$TOP/contrib/each_mailbox" --wait=0 "$@"\n' > e && chmod +x e && mkdir boxes
    $ printf 'ann@example.org\nbob@example.org\n' | ./e boxes make > made && echo 'keep;' > filter
    $ for words in look 'store filter' 'copy copies' 'maildir mail' migrate; do flock boxes/example.org/ann.depot.lock ./e boxes $words; echo $?; done
    1 done, 1 failed
    75
    1 done, 1 failed
    75
    1 done, 1 failed
    75
    1 done, 1 failed
    75
    1 done, 1 failed
    75
    2> each_mailbox: boxes/example.org/ann.depot: another process keeps the lock boxes/example.org/ann.depot.lock
    2> each_mailbox: boxes/example.org/ann.depot: another process keeps the lock boxes/example.org/ann.depot.lock
    2> each_mailbox: boxes/example.org/ann.depot: another process keeps the lock boxes/example.org/ann.depot.lock
    2> each_mailbox: boxes/example.org/ann.depot: another process keeps the lock boxes/example.org/ann.depot.lock
    2> each_mailbox: boxes/example.org/ann.depot: another process keeps the lock boxes/example.org/ann.depot.lock
    $ find copies mail -type f | sort
    copies/example.org/bob.depot
    copies/example.org/bob.depot-wal
    $ rm boxes/example.org/ann.depot* && printf '#!/bin/sh\nkill -KILL $$\n' > killed && chmod +x killed
    $ for words in look migrate; do USED=./killed ./e boxes $words; echo $?; done
    0 done, 1 failed
    65
    0 done, 1 failed
    75
    2> each_mailbox: boxes/example.org/bob.depot: inspect ended with -9
    2> each_mailbox: boxes/example.org/bob.depot: the program ended before it answered
    $ rm -r boxes copies mail

## through hold, whose batch keeps the lock
Only if: command -v flock && command -v sqlite3 # there is no flock or no sqlite3
    $ printf '#!/bin/sh\nDEPOT="$PWD/depot" exec "$TOP/contrib/each_mailbox" --wait=100 "$@"\n' > e && chmod +x e && mkdir boxes
    $ printf 'ann@example.org\nbob@example.org\n' | ./e boxes make > made && echo 'keep;' > filter && echo keep > wrong
    $ sqlite3 boxes/example.org/bob.depot "INSERT INTO users VALUES ('bob', 0, x'00')"
    $ cat > served <<'END'
    > DEPOT="$PWD/depot" "$TOP/contrib/hold" boxes 2> said & until [ -S boxes/.hold ]; do sleep 0.1; done
    > "$TOP/contrib/ask" boxes/example.org/ann.depot deliver ann examples/ticket.eml
    > flock -n boxes/example.org/ann.depot.lock true || echo held
    > for words in look 'store wrong' 'copy copies' 'maildir mail' 'store filter' migrate; do ./e boxes $words; done
    > kill $!; wait
    > END
    $ sh served
    1 message "INBOX"
    held
    1 done, 1 failed
    0 done, 2 failed
    2 done, 0 failed
    2 done, 0 failed
    2 done, 0 failed
    2 done, 0 failed
    2> each_mailbox: boxes/example.org/bob.depot: the filter of "bob" is refused 20 Spelling: store it again
    2> each_mailbox: boxes/example.org/ann.depot: refused 13 Syntax at 1
    2> each_mailbox: boxes/example.org/bob.depot: refused 13 Syntax at 1
    $ depot list copies/example.org/ann.depot ann && ls mail/example.org/ann/new && depot inspect boxes/example.org/bob.depot | grep ^user
    1 message "INBOX" "" message/rfc822 3678
    1.depot-ann
    user "bob" last 0 entries 0 octets 0 program accepted version 2
    $ rm -r boxes copies mail

## names of any bytes, and wrong words
Only if: command -v flock # there is no flock
    $ printf '#!/bin/sh\nDEPOT=${USED:-depot} exec "$TOP/contrib/each_mailbox" "$@"\n' > e && chmod +x e && mkdir boxes none
    $ odd=$(printf 'a \033[1m"\nb\303\244') && mkdir "boxes/$odd" boxes/folder.depot && depot list "boxes/$odd/ann.depot" ann
    none
    $ echo 'keep;' > filter && for words in look 'store filter' 'copy copies' migrate 'maildir mail'; do ./e boxes $words; done && depot list copies/a*/ann.depot ann
    1 done, 0 failed
    1 done, 0 failed
    1 done, 0 failed
    1 done, 0 failed
    1 done, 0 failed
    none
    $ cp -r boxes/a* "boxes/$(printf '\377')" && for words in look 'store filter' migrate; do ./e boxes $words; done
    1 done, 1 failed
    1 done, 1 failed
    1 done, 1 failed
    2> each_mailbox: boxes/\xff/ann.depot: the name isn't UTF-8, which the program wants
    2> each_mailbox: boxes/\xff/ann.depot: the name isn't UTF-8, which the program wants
    2> each_mailbox: boxes/\xff/ann.depot: the name isn't UTF-8, which the program wants
    [65]
    $ for words in '' boxes 'boxes find' 'boxes copy' 'boxes look x' '--wait=x boxes look' '--jobs=2 boxes look' '-x look' 'boxes copy -x'; do ./e $words; echo $?; done 2>&1 | sort | uniq -c
          9 64
          9 each_mailbox: the words are each_mailbox [--wait=SECONDS] DIR make | store FILTERS | look | copy TO | maildir TO | migrate
    $ ./e boxes copy boxes/copies; ./e boxes maildir .//boxes; ./e absent look; ./e none look; ./e boxes store absent; ./e boxes store none; USED=./absent ./e boxes look; echo $?
    69
    2> each_mailbox: boxes/copies is in boxes, where the next run would take copies for mailboxes
    2> each_mailbox: .//boxes is in boxes, where the next run would take copies for mailboxes
    2> each_mailbox: there is no folder absent
    2> each_mailbox: no file below none has a name that ends in .depot
    2> each_mailbox: there is no file or folder absent
    2> each_mailbox: no file below none has a name that ends in .sieve
    2> each_mailbox: the program ./absent can't be started
    $ ./e --help > help && head -n 1 help
    Does one thing with each mailbox below a folder:
    $ rm -r boxes copies mail none
