# hold, ask and deliver with an id

## commands while mail comes in, and each mail filed once
Only if: command -v flock && [ -d /proc/self ] # there is no flock or no /proc
    $ TMPDIR=/tmp "$TOP/contrib/test_hold" "$(command -v depot)" > report || cat report
    $ grep -c ' 0 failed$' report
    1

## the words of ask
    $ "$TOP/contrib/ask" mail.depot list ann
    2> ask: there is no file mail.depot
    [66]
    $ "$TOP/contrib/ask" --make mail.depot list ann
    none
    $ "$TOP/contrib/ask" mail.depot remove ann 1
    2> refused 40 NoSuchEntry
    [1]
    $ "$TOP/contrib/ask" mail.depot check ann
    2> ask: ? the commands are script, code, deliver, list, since, catalog, export, remove and migrate
    [64]
    $ "$TOP/contrib/ask" mail.depot json
    2> ask: ? the commands are script, code, deliver, list, since, catalog, export, remove and migrate
    [64]
    $ printf 'json\nlist ann\n' | "$TOP/contrib/ask" mail.depot -
    {"entries":[],"status":0}
    $ "$TOP/contrib/ask" --once 'an id' ann@example.org mail.depot deliver ann examples/invoice.eml
    2> ask: an id has 1 to 128 visible characters of ASCII, and a recipient 1 to 1000 bytes
    [64]
    $ printf 'deliver ann "examples/invoice.eml"\nlist ann\nsince ann 1\n' | "$TOP/contrib/ask" mail.depot -
    1 message "INBOX"
    = 0
    1 message "INBOX" "" message/rfc822 19165
    = 0
    none
    = 0
    $ "$TOP/contrib/ask" mail.depot since ann 0
    1 message "INBOX" "" message/rfc822 19165
    $ "$TOP/contrib/ask" mail.depot copy copy.depot
    copied
    $ depot list copy.depot ann
    1 message "INBOX" "" message/rfc822 19165
    $ echo 'no depot' > other && "$TOP/contrib/ask" other list ann
    2> refused 43 Database: it is no database, or it is damaged
    [1]
    $ rm -f mail.depot.lock other.lock
