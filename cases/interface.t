# What docs/INTERFACE.md shows: a batch, the two examples that save mail, and the file of a depot

Both scripts take a lock by the file beside the depot. The names of what is saved are those that senders wrote, made harmless.

## the batch that the page begins with
    $ sed -n '/^```/q; s/^    //p' "$TOP/docs/INTERFACE.md" | sed 's,/tmp/,,g' > page
    $ sed -n 's/^\$ //p; /^      /p' page > commands; grep -v '^\$ \|^      ' page > answers; wc -l < commands; sh commands | diff answers - && rm page commands answers
    3
    $ depot export mail.depot ann 1 raw | cmp - 1.pdf && rm 1.pdf

## the answers in JSON that the page shows
    $ sed -n '/^### Answers in JSON/,/^|/s/^    //p' "$TOP/docs/INTERFACE.md" | sed 's,/tmp/,,g' > page
    $ sed -n 's/^\$ //p; /^      /p' page > commands; grep -v '^\$ \|^      ' page > answers; wc -l < commands; sh commands | diff answers - && rm page commands answers json.depot json.depot-wal
    3

## the catalog that the page shows
    $ sed -n '/^## Lines of a catalog/,/^## Standard input/s/^    //p' "$TOP/docs/INTERFACE.md" | sed 's,/tmp/,,g' > page
    $ sed -n 's/^\$ //p' page > commands; grep -v '^\$ ' page > answers; wc -l < commands; sh commands | diff answers - && rm page commands answers
    3
    $ depot list mail.depot ann | wc -l
    2

## new mail with its attachments, and no mail twice
Only if: command -v flock # there is no flock
    $ cat > filter << 'END'
    > require ["foreverypart", "mime", "vnd.depot"];
    > foreverypart { if header :mime :type "Content-Disposition" "attachment" { store "Files"; } }
    > END
    $ depot script mail.depot ann filter
    stored
    $ for mail in invoice newsletter ticket forwarded; do depot deliver mail.depot ann "examples/$mail.eml"; done | grep -c part
    4
    $ sh examples/attachments.sh mail.depot ann saved
    $ find saved -type f | sort
    saved/2/1-rechnung-2026-0417.pdf
    saved/2/mail.eml
    saved/4/3-bed.jpg
    saved/4/mail.eml
    saved/7/5-printer.log
    saved/7/6-contract_2025.pdf
    saved/7/mail.eml
    saved/8/mail.eml
    saved/last
    $ cmp saved/2/mail.eml examples/invoice.eml
    $ depot parts examples/invoice.eml | grep -c "$(sha256sum < saved/2/1-rechnung-2026-0417.pdf | cut -d ' ' -f 1)"
    1
    $ python3 examples/attachments.py mail.depot ann same && diff -r saved same
    $ depot deliver mail.depot ann examples/invoice.eml
    9 part "Files"
    10 message "INBOX"
    $ sh examples/attachments.sh mail.depot ann saved
    $ LC_ALL=C diff -rq same saved | sort; ls saved/10
    Files same/last and saved/last differ
    Only in saved: 10
    9-rechnung-2026-0417.pdf
    mail.eml
    $ python3 examples/attachments.py mail.depot ann same && diff -r saved same
    $ sh examples/attachments.sh mail.depot ann saved && python3 examples/attachments.py mail.depot ann same && diff -r saved same
    $ rm -r saved same filter

## each stored part of the gallery's mails, linked to the mail that was delivered with it
Only if: command -v flock # there is no flock

`7x4` is the mail with the number 7, to which four stored parts are linked. What `deliver` printed is compared with what both scripts find.
    $ cat > each.sieve << 'END'
    > require ["foreverypart", "vnd.depot"];
    > foreverypart { store "Parts"; }
    > END
    $ cat > mail-first.sieve << 'END'
    > require ["fileinto", "foreverypart", "vnd.depot"];
    > fileinto "Mail";
    > foreverypart { store "Parts"; }
    > END
    $ cat > link << 'END'
    > depot script mail.depot $1 $2 > /dev/null && depot script mail.depot $1.py $2 > /dev/null
    > for mail in examples/gallery/*.eml; do
    >     depot deliver mail.depot $1 $mail > answer
    >     awk '$2 == "part" { part[$1] } $2 == "message" { mail = $1 } END { for (it in part) print it, mail }' answer
    > done | sort -n > told
    > sh examples/attachments.sh mail.depot $1 saved
    > python3 examples/attachments.py mail.depot $1 same && diff -r saved same
    > python3 examples/attachments.py mail.depot $1.py delivered examples/gallery/*.eml && diff -r saved delivered
    > find saved -name '*-*' | sed 's,saved/\([^/]*\)/\([0-9]*\)-.*,\2 \1,' | sort -n > linked
    > diff told linked && echo "$1:" $(cut -d ' ' -f 2 linked | sort -n | uniq -c | awk '{ print $2 "x" $1 }')
    > rm -r same delivered answer told linked
    > END
    $ for filter in each mail-first; do sh link $filter $filter.sieve && rm -r saved; done
    each: 2x1 7x4 9x1 14x4 18x3 20x1 25x4 27x1 31x3 33x1 38x4 40x1 42x1 46x3 51x4 53x1 55x1 59x3 63x3 67x3 69x1 71x1 73x1 75x1
    mail-first: 1x1 3x4 8x1 10x4 15x3 19x1 21x4 26x1 28x3 32x1 34x4 39x1 41x1 43x3 47x4 52x1 54x1 56x3 60x3 64x3 68x1 70x1 72x1 74x1
    $ for filter in attachments forms invitations invoices; do sh link $filter examples/gallery/$filter.sieve && find saved -name '*-*' | LC_ALL=C sort && rm -r saved; done
    attachments: 3x1
    saved/3/2-roof.png
    forms: 11x2
    saved/11/12-form.txt
    saved/11/13-printer.log
    invitations: 15x1
    saved/15/14-
    invoices: 15x2
    saved/15/16-invoice-2026-118.pdf
    saved/15/17-invoice-2026-118.xml
    $ rm each.sieve mail-first.sieve link

## a mail before its parts, names that lead elsewhere, and parts without a mail
Only if: command -v flock # there is no flock
    $ for name in '../../out' '-rf' "$(printf '%0300d' 0).pdf" ''; do
    >     printf 'Subject: x\nContent-Disposition: attachment; filename="%s"\n\n%s\n' "$name" "$name"
    > done > mails
    $ csplit -s -f mail. mails '/^Subject/' '{*}'; rm mail.00 mails
    $ echo 'require ["foreverypart", "vnd.depot", "fileinto"]; fileinto "A"; foreverypart { store "B"; }' > first
    $ echo 'require ["foreverypart", "vnd.depot"]; foreverypart { store "B"; } discard;' > alone
    $ depot script mail.depot ann first && depot script mail.depot bob alone
    stored
    stored
    $ for user in ann bob; do for mail in mail.0*; do depot deliver mail.depot $user $mail; done; done | wc -l
    12
    $ for user in ann bob; do
    >     sh examples/attachments.sh mail.depot $user saved_$user
    >     python3 examples/attachments.py mail.depot $user same_$user
    >     diff -r saved_$user same_$user
    >     find saved_$user -type f | sort | sed 's/0\{90,\}/0../'
    > done
    saved_ann/1/2-.._.._out
    saved_ann/1/mail.eml
    saved_ann/3/4--rf
    saved_ann/3/mail.eml
    saved_ann/5/6-0...pdf
    saved_ann/5/mail.eml
    saved_ann/7/8-
    saved_ann/7/mail.eml
    saved_ann/last
    saved_bob/last
    saved_bob/unlinked/1-.._.._out
    saved_bob/unlinked/2--rf
    saved_bob/unlinked/3-0...pdf
    saved_bob/unlinked/4-
    $ rm -r saved_* same_* mail.0* first alone

## a help desk's filter, which files the mail first, and the same parts in several mails
Only if: command -v flock # there is no flock
    $ cat > tickets << 'END'
    > require ["fileinto", "foreverypart", "mime", "vnd.depot"];
    > fileinto "Tickets";
    > foreverypart { if header :mime :type "Content-Disposition" "attachment" { store "Files"; } }
    > END
    $ depot script mail.depot ann tickets
    stored
    $ for mail in invoice ticket invoice newsletter; do depot deliver mail.depot ann "examples/$mail.eml"; done
    1 message "Tickets"
    2 part "Files"
    3 message "Tickets"
    4 part "Files"
    5 part "Files"
    6 message "Tickets"
    7 part "Files"
    8 message "Tickets"
    9 part "Files"
    $ sh examples/attachments.sh mail.depot ann saved
    $ python3 examples/attachments.py mail.depot ann same && diff -r saved same
    $ find saved -type f | sort
    saved/1/2-rechnung-2026-0417.pdf
    saved/1/mail.eml
    saved/3/4-printer.log
    saved/3/5-contract_2025.pdf
    saved/3/mail.eml
    saved/6/7-rechnung-2026-0417.pdf
    saved/6/mail.eml
    saved/8/9-bed.jpg
    saved/8/mail.eml
    saved/last
    $ rm -r saved same

## the answer of deliver links what the list can't, and a mail that is too large or can't be read is put aside
    $ sed '1,/^Subject:/s/^Subject:.*/Subject: again/' examples/invoice.eml > again
    $ sed '1,/^Subject:/s/^Subject:.*/Subject: spam/' examples/invoice.eml > spam
    $ head -c 67108865 /dev/zero > large
    $ cat > mixed << 'END'
    > require ["fileinto", "foreverypart", "mime", "vnd.depot"];
    > if not header :is "Subject" "again" { fileinto "Tickets"; }
    > foreverypart { if header :mime :type "Content-Disposition" "attachment" { store "Files"; } }
    > END
    $ sed 's/fileinto "Tickets"/discard/; s/again/spam/; s/not //; s/"fileinto", //' mixed > discards
    $ depot script mail.depot ann mixed && depot script mail.depot bob discards
    stored
    stored
    $ for user in ann bob; do
    >     python3 examples/attachments.py mail.depot $user saved_$user examples/invoice.eml large again gone spam again; echo $?
    >     find saved_$user -type f -name '*[0-9]-*' | sort
    > done
    65
    saved_ann/1/2-rechnung-2026-0417.pdf
    saved_ann/4/3-rechnung-2026-0417.pdf
    saved_ann/5/6-rechnung-2026-0417.pdf
    saved_ann/8/7-rechnung-2026-0417.pdf
    65
    saved_bob/2/1-rechnung-2026-0417.pdf
    saved_bob/4/3-rechnung-2026-0417.pdf
    saved_bob/7/6-rechnung-2026-0417.pdf
    saved_bob/unlinked/5-rechnung-2026-0417.pdf
    2> put aside: large: refused 2 MessageTooLarge
    2> put aside: gone: refused 46 Read
    2> put aside: large: refused 2 MessageTooLarge
    2> put aside: gone: refused 46 Read
    $ rm -r saved_* again spam large mixed discards

## a depot that another process has: the example waits, and names what it can't do
    $ depot list mail.depot ann
    none
    $ cat > held << 'END'
    > #!/bin/sh
    > # another process has the depot when `inspect` is asked first
    > [ "$1" = inspect ] && [ ! -e asked ] || exec depot "$@"
    > mkfifo in; depot batch "$2" < in > other & exec 3> in
    > echo 'list bob' >&3; until grep -qs = other; do sleep 0.1; done
    > depot "$@" | tee asked; exec 3>&-; wait
    > END
    $ chmod +x held; DEPOT=$PWD/held python3 examples/attachments.py mail.depot ann saved examples/invoice.eml; cat asked; ls saved/1
    no depot: another process holds it
    mail.eml
    $ rm -r held in other asked saved
    $ python3 examples/attachments.py mail.depot 'no user' none
    2> refused 44 UserName: catalog no user 0; depot inspect mail.depot says more
    [1]
    $ rm -r none

## a depot that isn't there is not made
    $ sh examples/attachments.sh mail.depot ann saved
    2> mail.depot: there is no such file
    [1]
    $ python3 examples/attachments.py mail.depot ann saved 2> said; sed 's, /.*/, ,' said; ls
    there is no file mail.depot; depot inspect mail.depot says more
    depot
    examples
    said
    $ mkdir bin && ln -s "$(command -v python3)" bin/python3 && PATH=$PWD/bin python3 examples/attachments.py mail.depot ann saved
    2> there is no program depot: put depot on the PATH, or name it by the variable DEPOT; depot inspect mail.depot says more
    [1]
    $ rm -r bin

## a depot whose numbers went back, as after an older copy was put in its place
    $ for n in 1 2 3; do depot deliver mail.depot ann examples/ticket.eml; done > said && cp mail.depot older && cp mail.depot-wal older-wal
    $ depot deliver mail.depot ann examples/ticket.eml && python3 examples/attachments.py mail.depot ann saved && cat saved/last
    4 message "INBOX"
    4
    $ depot remove mail.depot ann 4 && python3 examples/attachments.py mail.depot ann saved && cat saved/last
    removed 4
    4
    $ mv older mail.depot && mv older-wal mail.depot-wal && python3 examples/attachments.py mail.depot ann saved
    2> mail.depot: its numbers went back behind 4, as in an older copy: save ann into a new folder
    [1]
    $ rm -r saved

## the page has the core of the example, and the tables word for word
Only if: python3 -c 'import sqlite3' # there is no sqlite3 for python3
    $ depot list mail.depot ann
    none
    $ cat > compare << 'END'
    > import os, re, sqlite3
    > page = open(os.environ["TOP"] + "/docs/INTERFACE.md").read()
    > blocks = dict(re.findall(r"^```(\w+)\n(.*?)^```$", page, re.MULTILINE | re.DOTALL))
    > print(blocks["python"] in open("examples/attachments.py").read())
    > file = sqlite3.connect("mail.depot")
    > tables = [sql for (sql,) in file.execute("SELECT sql FROM sqlite_master WHERE type = 'table'")]
    > print(tables == blocks["sql"].splitlines())
    > print(file.execute("PRAGMA application_id").fetchall(), file.execute("PRAGMA user_version").fetchall())
    > END
    $ python3 compare; rm compare
    True
    True
    [(0,)] [(0,)]
