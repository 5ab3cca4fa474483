# contrib/expect, which tests a filter on mails

Each filter of the gallery has a file of expectations beside it.

## the gallery
    $ for filter in "$TOP"/examples/gallery/*.sieve; do
    >     "$TOP/contrib/expect" "$filter" "${filter%.sieve}.expect" > said || cat said
    >     grep -c '^ok ' said
    > done | sort | uniq -c | sed 's/^ *//'
    6 2
    9 3
    $ rm said

## what passes, and what does not
    $ printf 'require "fileinto"; if header :contains "Subject" "bill" { fileinto "Bills"; }' > filter
    $ printf 'Subject: the bill\n\n' > bill && printf 'Subject: hello\n\n' > 'a # \ letter'
    $ cat > expectations << 'END'
    > # Bills
    > mail bill
    > fileinto "Bills"
    > 
    > mail bill
    > fileinto "Bills"
    > charged 60 of 230
    > 
    > # anything else
    > mail a # \ letter
    > fileinto "Letters"
    > keep
    > 
    > mail bill
    > 
    > mail gone
    > keep
    > END
    $ "$TOP/contrib/expect" --trace filter expectations
    TAP version 14
    1..5
    ok 1 - bill
    not ok 2 - bill
      ---
      diff: |2
         fileinto "Bills"
        -charged 60 of 230
        +charged 73 of 272
      trace: |2
        filter:1:24: header yes "the bill" contains "bill"
        filter:1:60: fileinto "Bills"
        fileinto "Bills"
        charged 73 of 272
      ...
    not ok 3 - a \# \\ letter
      ---
      diff: |2
        -fileinto "Letters"
         keep
      trace: |2
        filter:1:24: header no, 1 value
        keep
        charged 51 of 233
      ...
    not ok 4 - bill
      ---
      message: nothing is expected of this mail, and --write records what is done
      diff: |2
        +fileinto "Bills"
      trace: |2
        filter:1:24: header yes "the bill" contains "bill"
        filter:1:60: fileinto "Bills"
        fileinto "Bills"
        charged 73 of 272
      ...
    not ok 5 - gone
      ---
      diff: |2
        -keep
        +there is no file gone
      ...
    [1]

## a file in another folder, whose mails are beside it
    $ mkdir tests && printf 'keep;' > filter && printf 'mail one\nkeep\n' > tests/expectations && : > tests/one
    $ "$TOP/contrib/expect" filter tests/expectations
    TAP version 14
    1..1
    ok 1 - one
    $ rm -r tests

## a mail that is refused
    $ printf 'keep;' > filter && ln -s "$FILES/too-large" large && ln -s "$FILES/too-many-parts" many
    $ printf 'mail large\nrefused 2 MessageTooLarge\n\nmail many\nkeep\n' > expectations
    $ "$TOP/contrib/expect" filter expectations
    TAP version 14
    1..2
    ok 1 - large
    not ok 2 - many
      ---
      diff: |2
        -keep
        +refused 3 TooManyParts
      ...
    [1]

## what is done now is recorded
    $ printf 'require "fileinto"; if header :contains "Subject" "bill" { fileinto "Bills"; }' > filter
    $ printf 'Subject: the bill\n\n' > bill && : > letter
    $ "$TOP/contrib/expect" --write filter expectations bill letter
    wrote expectations: 2 mails
    $ cat expectations
    mail bill
    fileinto "Bills"

    mail letter
    keep
    $ cat > expectations << 'END'
    > # of the office
    > mail bill
    > # goes away
    > discard
    > charged 1 of 1
    > # and that is all
    > 
    > mail letter
    > END
    $ "$TOP/contrib/expect" --write filter expectations
    wrote expectations: 2 mails
    $ cat expectations
    # of the office
    mail bill
    # goes away
    fileinto "Bills"
    charged 73 of 272
    # and that is all

    mail letter
    keep
    $ "$TOP/contrib/expect" filter expectations
    TAP version 14
    1..2
    ok 1 - bill
    ok 2 - letter

## nothing is written where a mail is gone, or the filter is refused
    $ printf 'keep;' > filter && printf 'mail gone\n' > expectations
    $ "$TOP/contrib/expect" --write filter expectations
    2> depot-expect: there is no file gone
    [1]
    $ printf 'kep;' > filter && : > gone
    $ "$TOP/contrib/expect" --write filter expectations
    # filter:1:1: error: unknown command `kep`, did you mean `keep`?
    #   kep;
    #   ^
    2> depot-expect: the filter filter is not accepted: refused 15 UnknownCommand at 0
    [1]
    $ cat expectations
    mail gone

## a filter that is refused
    $ printf 'if header :contains "Subject" "bill" {\n    fileinto "Bills";\n}\n' > filter
    $ printf 'mail bill\nkeep\n' > expectations
    $ "$TOP/contrib/expect" filter expectations
    TAP version 14
    # filter:2:5: error: `fileinto` needs `require "fileinto"` before it
    #       fileinto "Bills";
    #       ^
    Bail out! the filter filter is not accepted: refused 16 MissingCapability at 6
    [1]

## no filter, no expectations, another file, no program
    $ printf 'keep;' > filter && printf '# a\nkeep\nmail a\n' > expectations && : > empty
    $ "$TOP/contrib/expect" none empty
    TAP version 14
    Bail out! there is no filter none
    [1]
    $ "$TOP/contrib/expect" filter none
    TAP version 14
    Bail out! none: No such file or directory
    [1]
    $ "$TOP/contrib/expect" filter expectations
    TAP version 14
    Bail out! line 2 of the expectations stands before the first `mail PATH`: keep
    [1]
    $ DEPOT=./none "$TOP/contrib/expect" filter empty
    TAP version 14
    Bail out! ./none can't be run: No such file or directory
    [1]

## no mails
    $ printf 'keep;' > filter && : > expectations
    $ "$TOP/contrib/expect" filter expectations
    TAP version 14
    Bail out! the expectations name no mail
    [1]

## words
    $ "$TOP/contrib/expect" filter
    2> usage: depot-expect [--trace | --write] FILTER EXPECTATIONS [MAIL ...]
    2> depot-expect: error: the following arguments are required: expectations, mails
    [2]
    $ "$TOP/contrib/expect" filter expectations mail
    2> usage: depot-expect [--trace | --write] FILTER EXPECTATIONS [MAIL ...]
    2> depot-expect: error: mails are only added with --write; a test names them in its file
    [2]
    $ "$TOP/contrib/expect" --help | sed -n 1p
    Tests a filter: runs it on mails, and compares what it does with what is expected:
