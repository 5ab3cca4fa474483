# The gallery's filters, each on a mail that it is about and on one that it isn't, and the tables of docs/GALLERY.md

## sender
    $ depot eval examples/gallery/sender.sieve examples/gallery/sender.eml
    fileinto "Chief"
    charged 1374 of 25499

## sender of a house
    $ depot eval examples/gallery/sender.sieve examples/gallery/house.eml
    fileinto "Supplier"
    charged 2021 of 24149

## sender of another house
    $ depot eval examples/gallery/sender.sieve examples/gallery/answer.eml
    keep
    charged 2511 of 35309

## sender in each form
    $ cat > try << 'END'
    > while IFS= read -r from; do
    >     printf 'From: %s\n\n' "$from" > mail
    >     depot eval examples/gallery/sender.sieve mail | sed -n 1p
    > done
    > END
    $ sh try << 'END'
    > chief@example.org
    > <chief@example.org>
    > The Chief <chief@example.org>
    > "Chief, The" <CHIEF@EXAMPLE.ORG> (on the road)
    > "<chief@example.org>" <eve@evil.example>
    > chief@example.org (The Chief)
    > achief@example.org
    > orders@supplier.example
    > Orders <orders@supplier.example>
    > orders@sales.supplier.example
    > END
    fileinto "Chief"
    fileinto "Chief"
    fileinto "Chief"
    fileinto "Chief"
    fileinto "Chief"
    keep
    keep
    fileinto "Supplier"
    fileinto "Supplier"
    keep

## budget of sender
    $ depot compile examples/gallery/sender.sieve out
    wrote 250 octets
    $ depot verify out
    A0=29 B0=90 A1=0 B1=0 A2=0 B2=0 A3=0 B3=0 by chains

## newsletters
    $ depot eval examples/gallery/newsletters.sieve examples/gallery/newsletters.eml
    fileinto "Lists/guild"
    charged 583 of 52557

## newsletters bulk
    $ depot eval examples/gallery/newsletters.sieve examples/gallery/bulk.eml
    fileinto "Lists"
    charged 240 of 36087

## newsletters none
    $ depot eval examples/gallery/newsletters.sieve examples/gallery/answer.eml
    keep
    charged 373 of 33495

## budget of newsletters
    $ depot compile examples/gallery/newsletters.sieve out
    wrote 266 octets
    $ depot verify out
    A0=12327 B0=54 A1=0 B1=0 A2=0 B2=0 A3=0 B3=0 by chains

## invoices
    $ depot eval examples/gallery/invoices.sieve examples/gallery/invoices.eml
    fileinto "Bills"
    store "Accounts" 2
    store "Accounts" 3
    charged 2688 of 1559681

## invoices none
    $ depot eval examples/gallery/invoices.sieve examples/gallery/attachments.eml
    keep
    charged 629 of 13493018

## budget of invoices
    $ depot compile examples/gallery/invoices.sieve out
    wrote 386 octets
    $ depot verify out
    A0=15 B0=33 A1=27 B1=125 A2=0 B2=0 A3=0 B3=0 by chains

## detail
    $ depot eval examples/gallery/detail.sieve examples/gallery/detail.eml
    fileinto "garden"
    charged 1261 of 82243

## detail several
    $ depot eval examples/gallery/detail.sieve examples/gallery/several.eml
    fileinto "choir"
    charged 4021 of 79906

## detail none
    $ depot eval examples/gallery/detail.sieve examples/gallery/tickets.eml
    keep
    charged 927 of 75355

## budget of detail
    $ depot compile examples/gallery/detail.sieve out
    wrote 278 octets
    $ depot verify out
    A0=32797 B0=123 A1=0 B1=0 A2=0 B2=0 A3=0 B3=0 by chains

## tickets
    $ depot eval examples/gallery/tickets.sieve examples/gallery/tickets.eml
    fileinto "Tickets/4711"
    charged 748 of 48603

## tickets answer
    $ depot eval examples/gallery/tickets.sieve examples/gallery/answer.eml
    fileinto "Tickets/4711"
    charged 2485 of 52881

## tickets new
    $ depot eval examples/gallery/tickets.sieve examples/gallery/detail.eml
    fileinto "Tickets/new"
    charged 620 of 53811

## budget of tickets
    $ depot compile examples/gallery/tickets.sieve out
    wrote 279 octets
    $ depot verify out
    A0=16425 B0=93 A1=0 B1=0 A2=0 B2=0 A3=0 B3=0 by chains

## attachments
    $ depot eval examples/gallery/attachments.sieve examples/gallery/attachments.eml
    store "Large/roof.png" 2
    keep
    charged 1265 of 6817318

## attachments none
    $ depot eval examples/gallery/attachments.sieve examples/gallery/invoices.eml
    keep
    charged 1468 of 817066

## budget of attachments
    $ depot compile examples/gallery/attachments.sieve out
    wrote 276 octets
    $ depot verify out
    A0=2 B0=0 A1=8224 B1=67 A2=0 B2=0 A3=0 B3=0 by chains

## junk
    $ depot eval examples/gallery/junk.sieve examples/gallery/junk.eml
    fileinto "Junk"
    charged 480 of 28826

## junk fifteen stars
    $ depot eval examples/gallery/junk.sieve examples/gallery/fifteen-stars.eml
    none
    charged 444 of 22518

## junk none
    $ depot eval examples/gallery/junk.sieve examples/gallery/answer.eml
    keep
    charged 474 of 29814

## budget of junk
    $ depot compile examples/gallery/junk.sieve out
    wrote 244 octets
    $ depot verify out
    A0=22 B0=76 A1=0 B1=0 A2=0 B2=0 A3=0 B3=0 by chains

## bounces
    $ depot eval examples/gallery/bounces.sieve examples/gallery/bounces.eml
    fileinto "Bounces/failed"
    charged 4792 of 245896

## bounces delayed
    $ depot eval examples/gallery/bounces.sieve examples/gallery/delayed.eml
    fileinto "Bounces/delayed"
    charged 4283 of 243763

## budget of bounces
    $ depot compile examples/gallery/bounces.sieve out
    wrote 293 octets
    $ depot verify out
    A0=23 B0=29 A1=26 B1=52 A2=0 B2=0 A3=0 B3=0 by chains

## invitations
    $ depot eval examples/gallery/invitations.sieve examples/gallery/invitations.eml
    store "Calendar/request" 2
    keep
    charged 1059 of 209477

## invitations none
    $ depot eval examples/gallery/invitations.sieve examples/gallery/attachments.eml
    keep
    charged 1277 of 7542550

## budget of invitations
    $ depot compile examples/gallery/invitations.sieve out
    wrote 271 octets
    $ depot verify out
    A0=2 B0=0 A1=12327 B1=74 A2=0 B2=0 A3=0 B3=0 by chains

## quarantine
    $ depot eval examples/gallery/quarantine.sieve examples/gallery/quarantine.eml
    fileinto "Quarantine"
    charged 25378 of 25406

## quarantine clean
    $ depot eval examples/gallery/quarantine.sieve examples/gallery/invoices.eml
    keep
    charged 33822 of 33874

## budget of quarantine
    $ depot compile examples/gallery/quarantine.sieve out
    wrote 239 octets
    $ depot verify out
    A0=2 B0=0 A1=8468 B1=0 A2=0 B2=0 A3=0 B3=0 by chains

## unseen
    $ depot eval examples/gallery/unseen.sieve examples/gallery/unseen.eml
    fileinto "Unseen"
    charged 841 of 79584

## unseen seen
    $ depot eval examples/gallery/unseen.sieve examples/gallery/attachments.eml
    keep
    charged 2239 of 5651398

## unseen message
    $ depot eval examples/gallery/unseen.sieve examples/gallery/sealed.eml
    fileinto "Unseen"
    charged 2055 of 249662

## budget of unseen
    $ depot compile examples/gallery/unseen.sieve out
    wrote 278 octets
    $ depot verify out
    A0=2 B0=0 A1=20512 B1=55 A2=8 B2=0 A3=0 B3=0 by chains

## disguised
    $ depot eval examples/gallery/disguised.sieve examples/gallery/disguised.eml
    fileinto "Disguised"
    charged 7725 of 311265

## disguised behind what is no parameter
    $ depot eval examples/gallery/disguised.sieve examples/gallery/broken.eml
    fileinto "Disguised"
    charged 3071 of 291609
    $ depot eval examples/attachments.sieve examples/gallery/broken.eml
    fileinto "Suspicious"
    charged 3512 of 200298

## disguised plain
    $ depot eval examples/gallery/disguised.sieve examples/gallery/attachments.eml
    keep
    charged 11338 of 9214705

## budget of disguised
    $ depot compile examples/gallery/disguised.sieve out
    wrote 464 octets
    $ depot verify out
    A0=45 B0=364 A1=0 B1=0 A2=0 B2=0 A3=0 B3=0 by chains

## guards
    $ depot eval examples/gallery/guards.sieve examples/gallery/guards.eml
    none
    charged 365 of 25964

## guards away
    $ depot eval examples/gallery/guards.sieve examples/gallery/away.eml
    fileinto "Automatic"
    charged 388 of 18888

## guards large
    $ depot eval examples/gallery/guards.sieve "$FILES/largest"
    fileinto "Large"
    charged 21 of 3892314208

## budget of guards
    $ depot compile examples/gallery/guards.sieve out
    wrote 296 octets
    $ depot verify out
    A0=38 B0=58 A1=0 B1=0 A2=0 B2=0 A3=0 B3=0 by chains

## projects
    $ depot eval examples/gallery/projects.sieve examples/gallery/projects.eml
    fileinto "Projects/Heron"
    charged 1235 of 149345

## projects without a name
    $ depot eval examples/gallery/projects.sieve examples/gallery/tickets.eml
    keep
    charged 429 of 41717

## budget of projects
    $ depot compile examples/gallery/projects.sieve projects.svbc
    wrote 218 octets
    $ depot verify projects.svbc
    A0=2 B0=0 A1=28913 B1=37 A2=0 B2=0 A3=0 B3=0 by chains

## forms
    $ depot eval examples/gallery/forms.sieve examples/gallery/forms.eml
    fileinto "Tickets/4711"
    store "Tickets/4711" 2
    store "Tickets/4711" 3
    charged 2743 of 621384

## forms without a form
    $ depot eval examples/gallery/forms.sieve examples/gallery/tickets.eml
    keep
    charged 193 of 117991

## budget of forms
    $ depot compile examples/gallery/forms.sieve forms.svbc
    wrote 456 octets
    $ depot verify forms.svbc
    A0=12316 B0=0 A1=69691 B1=104 A2=0 B2=0 A3=0 B3=0 by chains

## newsletters step by step
    $ depot trace examples/gallery/newsletters.sieve examples/gallery/bulk.eml
    examples/gallery/newsletters.sieve:4:4: header no, 0 values
    examples/gallery/newsletters.sieve:7:16: exists yes
    examples/gallery/newsletters.sieve:7:9: anyof yes
    examples/gallery/newsletters.sieve:8:5: fileinto "Lists"
    fileinto "Lists"
    charged 240 of 36087

The tables of the page, compared with what these filters do and cost.

## the filters of docs/GALLERY.md do what its table says
    $ cat > look << 'END'
    > import re, subprocess, sys
    > filters, mails = set(), 0
    > for line in open(sys.argv[1], encoding="utf-8"):
    >     if row := re.fullmatch(r"\| .* \| \[`(\w+)\.sieve`\]\(\S+\) \| (.*) \|\n", line):
    >         filters.add(row[1])
    >         for cell in row[2].split("; "):
    >             mail, *wanted = re.findall("`([^`]*)`", cell)
    >             words = ["depot", "eval", f"examples/gallery/{row[1]}.sieve", f"examples/gallery/{mail}"]
    >             got = subprocess.run(words, capture_output=True, text=True).stdout.split("\n")[:-2]
    >             mails += 1
    >             if got != wanted:
    >                 print(row[1], mail, got)
    > print(len(filters), "filters,", mails, "mails")
    > END
    $ python3 look "$TOP/docs/GALLERY.md"
    15 filters, 25 mails
    $ ls examples/gallery/*.sieve | wc -l
    15

## the filters cost what the table of docs/GALLERY.md says
    $ sed -n 's/^| `\([a-z]*\)` | \([0-9]*\) | \([0-9]*\) | \([0-9]*\) | \([0-9]*\) | \([0-9]*\) |.*/\1 A0=\2 B0=\3 A1=\4 B1=\5 A2=\6 B2=0 A3=0 B3=0 by chains/p' \
    >     "$TOP/docs/GALLERY.md" | sort > wanted
    $ for filter in examples/gallery/*.sieve; do
    >     depot compile $filter out > said
    >     echo "$(basename $filter .sieve) $(depot verify out)"
    > done | sort > got
    $ diff wanted got
    $ wc -l < got
    15

The names of the gallery's table for those who come from another Sieve: none is a capability here, and what it says in their place is
accepted.

## coming from another Sieve
    $ sed -n '/^## Coming from another Sieve/,/^## What/s/^| \(`[^|]*\) |.*/\1/p' "$TOP/docs/GALLERY.md" | tr -d '` ' | tr , '\n' > names
    $ wc -l < names
    47
    $ sort names | uniq -d
    $ while read -r name; do printf 'require "%s";' "$name" > script; depot check script 2>&1; done < names | uniq -c | sed 's/^ *//'
    47 refused 17 UnknownCapability at 0
    $ cat > script << 'END'
    > require ["fileinto", "foreverypart", "mime", "variables", "vnd.depot"];
    > if header :matches "From" ["a@b.example", "*<a@b.example>*"] { fileinto "A"; keep; }
    > if header :matches "From" ["a@*", "*<a@*>*"] { fileinto "A"; }
    > if header :matches "From" ["*@b.example", "*@b.example>*"] { fileinto "A"; }
    > if header :is "Delivered-To" "a@b.example" { fileinto "Grüße"; }
    > foreverypart { if partbody :contains "x" { fileinto "A"; } }
    > foreverypart { take "text"; }
    > if header :contains "Date" "Mon," { fileinto "A"; }
    > END
    $ depot check script
    ok
