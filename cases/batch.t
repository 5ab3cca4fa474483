# Batches: commands on one open depot, a line each

## each line is answered, and its status ends the answer
    $ cat > lines <<'END'
    > script ann examples/documents.sieve
    > deliver ann examples/invoice.eml
    > list ann
    > export ann 1 base16 attached
    > remove ann 1
    > remove ann 1
    > list ann
    > code bob examples/keep.svbc
    > migrate
    > END
    $ depot batch mail.depot < lines
    stored
    = 0
    1 part "Documents"
    2 message "INBOX"
    = 0
    1 part "Documents" "rechnung-2026-0417.pdf" application/pdf 9016
    2 message "INBOX" "" message/rfc822 19165
    = 0
    exported 1
    = 0
    removed 1
    = 0
    refused 40 NoSuchEntry
    = 1
    2 message "INBOX" "" message/rfc822 19165
    = 0
    stored
    = 0
    migrated 1
    = 0
    $ depot list mail.depot ann
    2 message "INBOX" "" message/rfc822 19165
    $ wc -c < attached
    18032
    $ depot decode base16 < attached > decoded && head -c 5 decoded && rm decoded
    %PDF-
    [no line break]

## no lines
    $ depot batch mail.depot < /dev/null
    $ depot inspect mail.depot | grep -v log
    depot
    contents 0 octets 0

## a depot that can't be opened
    $ printf '%65536s' '' > spaces
    $ printf 'deliver ann examples/invoice.eml\nlist ann\n' | depot batch spaces
    2> refused 43 Database
    [1]

## what is no command is told, and nothing happens
    $ cat > lines <<'END'
    > deliver ann
    > deliver ann examples/invoice.eml more
    > List ann
    > list ann bob
    > since ann
    > since ann 1 2
    > since ann 4294967296
    > since ann 18446744073709551616
    > since ann one
    > since ann -1
    > since ann ""
    > catalog ann
    > catalog ann 1 2
    > catalog ann 4294967296
    > catalog ann -1
    > export ann 1 base16
    > export ann 1 base17 file
    > export ann 0 raw file
    > remove ann 4294967296
    > remove ann one
    > migrate mail.depot
    > batch mail.depot
    > check examples/documents.sieve
    >
    > list  ann
    >  list ann
    > list ann 
    > list "ann
    > list "ann"bob
    > list a"nn
    > list "an\6"
    > list "an\6g"
    > END
    $ depot batch mail.depot < lines
    ? deliver USER MESSAGE
    = 2
    ? deliver USER MESSAGE
    = 2
    ? the commands are script, code, deliver, list, since, catalog, export, remove and migrate
    = 2
    ? list USER
    = 2
    ? since USER NUMBER
    = 2
    ? since USER NUMBER
    = 2
    ? NUMBER is 0 to 4294967295
    = 2
    ? NUMBER is 0 to 4294967295
    = 2
    ? NUMBER is 0 to 4294967295
    = 2
    ? NUMBER is 0 to 4294967295
    = 2
    ? NUMBER is 0 to 4294967295
    = 2
    ? catalog USER NUMBER
    = 2
    ? catalog USER NUMBER
    = 2
    ? NUMBER is 0 to 4294967295
    = 2
    ? NUMBER is 0 to 4294967295
    = 2
    ? export USER NUMBER ENCODING FILE
    = 2
    ? ENCODING is raw, base64, base64-mime, base32, base32hex, base16 or qp
    = 2
    ? NUMBER is 1 to 4294967295
    = 2
    ? NUMBER is 1 to 4294967295
    = 2
    ? NUMBER is 1 to 4294967295
    = 2
    ? migrate
    = 2
    ? the commands are script, code, deliver, list, since, catalog, export, remove and migrate
    = 2
    ? the commands are script, code, deliver, list, since, catalog, export, remove and migrate
    = 2
    ? words have one space between them, and others stand in quotes
    = 2
    ? words have one space between them, and others stand in quotes
    = 2
    ? words have one space between them, and others stand in quotes
    = 2
    ? words have one space between them, and others stand in quotes
    = 2
    ? words have one space between them, and others stand in quotes
    = 2
    ? words have one space between them, and others stand in quotes
    = 2
    ? words have one space between them, and others stand in quotes
    = 2
    ? words have one space between them, and others stand in quotes
    = 2
    ? words have one space between them, and others stand in quotes
    = 2
    $ ls | grep -v -e -wal
    depot
    examples
    lines
    mail.depot

## what is listed after a number, between other commands
    $ cat > lines <<'END'
    > since ann 0
    > deliver ann examples/invoice.eml
    > deliver ann examples/newsletter.eml
    > deliver ann examples/ticket.eml
    > since ann 0
    > since ann 1
    > since "ann" "+02"
    > since ann 3
    > since ann 4294967295
    > since bob 0
    > since Ann 0
    > remove ann 3
    > since ann 2
    > since ann 1
    > deliver ann examples/forwarded.eml
    > since ann 2
    > END
    $ depot batch mail.depot < lines
    none
    = 0
    1 message "INBOX"
    = 0
    2 message "INBOX"
    = 0
    3 message "INBOX"
    = 0
    1 message "INBOX" "" message/rfc822 19165
    2 message "INBOX" "" message/rfc822 66866
    3 message "INBOX" "" message/rfc822 3678
    = 0
    2 message "INBOX" "" message/rfc822 66866
    3 message "INBOX" "" message/rfc822 3678
    = 0
    3 message "INBOX" "" message/rfc822 3678
    = 0
    none
    = 0
    none
    = 0
    none
    = 0
    refused 44 UserName
    = 1
    removed 3
    = 0
    none
    = 0
    2 message "INBOX" "" message/rfc822 66866
    = 0
    4 message "INBOX"
    = 0
    4 message "INBOX" "" message/rfc822 2640
    = 0

## catalogs between other commands
    $ cat > lines <<'END'
    > catalog ann 0
    > script ann examples/documents.sieve
    > deliver ann examples/invoice.eml
    > catalog ann 0
    > catalog "ann" +01
    > catalog ann 4294967295
    > catalog bob 0
    > remove ann 1
    > catalog ann 0
    > catalog Ann 0
    > END
    $ depot batch mail.depot < lines
    = 0
    stored
    = 0
    1 part "Documents"
    2 message "INBOX"
    = 0
    {"folder":"Documents","kind":"part","media":"application/pdf","name":"rechnung-2026-0417.pdf","number":1,"octets":9016,"of":[{"number":2,"part":4}],"sha256":"80f8df41adb207ae3eceb0df7cfcf10bdd1d48d1b19423f1f5a03d9b6f7db81e"}
    {"fields":{"Date":"Mon, 16 Mar 2026 15:40:00 +0100","From":"=?UTF-8?Q?Papier_=26_S=C3=B6hne?= <rechnung@papier.example>","Message-ID":"<2026-0417@papier.example>","Subject":"=?UTF-8?Q?Rechnung_2026-0417?=","To":"\"Huber, Maria\" <huber@hollow.example>"},"folder":"INBOX","kind":"message","media":"message/rfc822","name":"","number":2,"octets":19165,"parts":5,"sha256":"7d7637424eb2617c2fc02cc19c711e6b478716fa422f86263f857a4e2a5bf794","stored":[{"number":1,"part":4}]}
    = 0
    {"fields":{"Date":"Mon, 16 Mar 2026 15:40:00 +0100","From":"=?UTF-8?Q?Papier_=26_S=C3=B6hne?= <rechnung@papier.example>","Message-ID":"<2026-0417@papier.example>","Subject":"=?UTF-8?Q?Rechnung_2026-0417?=","To":"\"Huber, Maria\" <huber@hollow.example>"},"folder":"INBOX","kind":"message","media":"message/rfc822","name":"","number":2,"octets":19165,"parts":5,"sha256":"7d7637424eb2617c2fc02cc19c711e6b478716fa422f86263f857a4e2a5bf794","stored":[{"number":1,"part":4}]}
    = 0
    = 0
    = 0
    removed 1
    = 0
    {"fields":{"Date":"Mon, 16 Mar 2026 15:40:00 +0100","From":"=?UTF-8?Q?Papier_=26_S=C3=B6hne?= <rechnung@papier.example>","Message-ID":"<2026-0417@papier.example>","Subject":"=?UTF-8?Q?Rechnung_2026-0417?=","To":"\"Huber, Maria\" <huber@hollow.example>"},"folder":"INBOX","kind":"message","media":"message/rfc822","name":"","number":2,"octets":19165,"parts":5,"sha256":"7d7637424eb2617c2fc02cc19c711e6b478716fa422f86263f857a4e2a5bf794","stored":[]}
    = 0
    refused 44 UserName
    = 1

## a word in quotes
    $ cp examples/invoice.eml 'a mail "of" Jörg'
    $ printf 'deliver "ann" "a mail \\22of\\22 J\\c3\\b6rg"\n' | depot batch mail.depot
    1 message "INBOX"
    = 0
    $ printf 'deliver "\\61nn" "a mail \\22of\\22 J\303\266rg"\nlist ""\n' | depot batch mail.depot
    2 message "INBOX"
    = 0
    refused 44 UserName
    = 1
    $ printf 'list "\\ff"\n' | depot batch mail.depot
    ? a word isn't UTF-8
    = 2
    $ rm 'a mail "of" Jörg'

## a line that the input ends within isn't done
    $ printf 'deliver ann examples/invoice.eml\ndeliver ann examples/invoice.eml' | depot batch mail.depot
    1 message "INBOX"
    = 0
    ? the input ended within this line
    = 2
    $ depot list mail.depot ann
    1 message "INBOX" "" message/rfc822 19165

## a long line
    $ { head -c 67108864 /dev/zero | tr '\0' 'a'; printf '\nlist ann\n'; } | depot batch mail.depot
    ? the commands are script, code, deliver, list, since, catalog, export, remove and migrate
    = 2
    none
    = 0

## refused code leaves the filter, empty messages, and one that is thrown away
    $ printf 'SVBC\1\0\0\0\0\0\0\0\0\0\2' > jump
    $ printf '\t\0\0\0\0\0\0\0' >> jump # JMP
    $ printf '\1\0\0\0\0\0\0\0' >> jump # HALT
    $ : > empty
    $ echo 'discard;' > nothing
    $ cat > lines <<'END'
    > code cat examples/keep.svbc
    > code cat jump
    > deliver cat empty
    > deliver dan empty
    > list cat
    > export cat 1 raw kept
    > script eve nothing
    > deliver eve empty
    > list eve
    > END
    $ depot batch mail.depot < lines
    stored
    = 0
    refused 25 Jump at 0
    = 1
    1 message "INBOX"
    = 0
    1 message "INBOX"
    = 0
    1 message "INBOX" "" message/rfc822 0
    = 0
    exported 1
    = 0
    stored
    = 0
    none
    = 0
    none
    = 0
    $ wc -c < kept
    0
    $ rm jump empty nothing kept

## many lines
    $ yes 'list ann' | head -n 20000 | depot batch mail.depot | sort | uniq -c | tr -s ' '
     20000 = 0
     20000 none

## deliveries that are ready together, also more than are filed at once
    $ : > empty
    $ for n in 1 2 3 63 64 65 130; do rm -f mail.depot*; yes 'deliver ann empty' | head -n "$n" | depot batch mail.depot > got
    > for i in $(seq "$n"); do printf '%s message "INBOX"\n= 0\n' "$i"; done | cmp - got; depot list mail.depot ann | wc -l; done
    1
    2
    3
    63
    64
    65
    130
    $ rm empty got

## deliveries to several users that are ready together
    $ : > empty
    $ cat > lines <<'END'
    > deliver ann examples/ticket.eml
    > deliver bob empty
    > deliver ann empty
    > list bob
    > deliver bob examples/ticket.eml
    > deliver ann examples/ticket.eml
    > END
    $ depot batch mail.depot < lines
    1 message "INBOX"
    = 0
    1 message "INBOX"
    = 0
    2 message "INBOX"
    = 0
    1 message "INBOX" "" message/rfc822 0
    = 0
    2 message "INBOX"
    = 0
    3 message "INBOX"
    = 0

## deliveries that are ready together leave in the tables what they leave one by one
Only if: python3 -c 'import sqlite3' # there is no sqlite3 for python3
    $ echo 'require ["foreverypart", "vnd.depot"]; foreverypart { if partbody :contains "foobar" { store "att"; } } discard;' > filter
    $ printf 'Content-Type: multipart/mixed; boundary=b\n\n--b\nContent-Disposition: attachment; filename="a.txt"\n' > mail.0
    $ printf 'Content-Transfer-Encoding: base64\n\nZm9vYmFy\n--b--\n' >> mail.0; printf 'Subject: a\n\nb\n' > mail.1; : > mail.2; printf 'Subject: c\n\nd\n' > mail.3
    $ for count in 0 1 3 64; do rm -f alone* together*; for depot in alone together; do depot script $depot ann filter; done
    >     for place in $(seq 0 $((count - 1))); do set -- ann bob cat; shift $((place % 3)); echo "deliver $1 mail.$((place % 4))"; done > lines
    >     while read -r command user mail; do depot $command alone $user $mail; done < lines > answers
    >     depot batch together < lines | grep -v '^= 0$' | cmp - answers; wc -l < answers
    >     "$TOP/cases/laid" alone > tables; "$TOP/cases/laid" together | cmp - tables; grep -c 'INTO "entries"' tables
    > done
    stored
    stored
    0
    0
    stored
    stored
    1
    1
    stored
    stored
    3
    3
    stored
    stored
    64
    48

## files that can't be read, and messages that are refused
    $ printf 'deliver ann nothing\nscript ann examples/invoice.eml\ndeliver Ann examples/invoice.eml\n' > lines
    $ printf 'deliver ann %s\nlist ann\n' "$FILES/too-large" >> lines
    $ depot batch mail.depot < lines
    refused 46 Read
    = 1
    refused 11 Lexical at 6
    = 1
    refused 44 UserName
    = 1
    refused 2 MessageTooLarge
    = 1
    none
    = 0

## an export doesn't replace the depot, and what fails leaves the file as it was
    $ printf 'deliver ann examples/ticket.eml\nexport ann 1 raw mail.depot\nexport ann 2 raw kept\nexport ann 1 raw no/such\n' > lines
    $ echo before > kept
    $ depot batch mail.depot < lines
    1 message "INBOX"
    = 0
    refused 45 Write
    = 1
    refused 40 NoSuchEntry
    = 1
    refused 45 Write
    = 1
    $ cat kept
    before
    $ depot export mail.depot ann 1 raw | cmp - examples/ticket.eml

## nor the files beside it, or beside another depot
    $ printf 'deliver ann examples/ticket.eml\nexport ann 1 raw mail.depot-wal\n' > lines
    $ printf 'export ann 1 raw ./mail.depot-shm\nexport ann 1 raw mail.depot-journal\nlist ann\n' >> lines
    $ depot list other.depot ann && sed -i 's/^list/export ann 1 raw other.depot-wal\n&/' lines
    none
    $ depot batch mail.depot < lines
    1 message "INBOX"
    = 0
    refused 45 Write
    = 1
    refused 45 Write
    = 1
    refused 45 Write
    = 1
    refused 45 Write
    = 1
    1 message "INBOX" "" message/rfc822 3678
    = 0

## a depot that is held, and output that is full
    $ depot script mail.depot ann examples/documents.sieve
    stored
    $ mkfifo in && : > out
    $ { depot batch mail.depot < in > out; echo "$?" >> out; } &
    > exec 3> in; echo 'list ann' >&3; until grep -qs = out; do sleep 0.1; done
    > depot batch mail.depot < /dev/null; echo "$?"; exec 3>&-; wait; cat out
    1
    none
    = 0
    0
    2> refused 43 Database
    $ echo 'deliver ann examples/ticket.eml' | depot batch mail.depot > /dev/full
    2> refused 45 Write
    [1]
    $ depot list mail.depot ann
    1 part "Documents" "contract 2025.pdf" application/pdf 508
    2 message "INBOX" "" message/rfc822 3678
    $ rm in out

## the answer is there before the next line is written
    $ mkfifo in out
    $ depot batch mail.depot < in > out & exec 3> in 4< out
    > for n in 1 2 3; do echo 'deliver ann examples/ticket.eml' >&3; read -r entry <&4; read -r status <&4; echo "$entry $status"; done
    > exec 3>&-; wait
    1 message "INBOX" = 0
    2 message "INBOX" = 0
    3 message "INBOX" = 0
    $ rm in out

## answers in JSON, if the first line asks for them
    $ printf keep > script
    $ cat > lines <<'END'
    > json
    > script ann examples/documents.sieve
    > deliver ann examples/invoice.eml
    > list ann
    > since ann 1
    > export ann 1 base16 attached
    > remove ann 1
    > remove ann 1
    > script ann script
    > code bob examples/keep.svbc
    > migrate
    > list bob
    > list "ann
    > since ann one
    > json
    > END
    $ depot batch mail.depot < lines
    {"status":0}
    {"entries":[{"folder":"Documents","kind":"part","media":"application/pdf","name":"rechnung-2026-0417.pdf","number":1,"octets":9016},{"folder":"INBOX","kind":"message","media":"message/rfc822","name":"","number":2,"octets":19165}],"status":0}
    {"entries":[{"folder":"Documents","kind":"part","media":"application/pdf","name":"rechnung-2026-0417.pdf","number":1,"octets":9016},{"folder":"INBOX","kind":"message","media":"message/rfc822","name":"","number":2,"octets":19165}],"status":0}
    {"entries":[{"folder":"INBOX","kind":"message","media":"message/rfc822","name":"","number":2,"octets":19165}],"status":0}
    {"exported":1,"status":0}
    {"removed":1,"status":0}
    {"name":"NoSuchEntry","refused":40,"status":1}
    {"name":"Syntax","place":1,"refused":13,"status":1}
    {"status":0}
    {"migrated":1,"status":0}
    {"entries":[],"status":0}
    {"status":2,"wrong":"words have one space between them, and others stand in quotes"}
    {"status":2,"wrong":"NUMBER is 0 to 4294967295"}
    {"status":2,"wrong":"the commands are script, code, deliver, list, since, catalog, export, remove and migrate"}
    $ wc -c < attached
    18032
    $ printf 'json\nlist ann' | depot batch mail.depot
    {"status":2,"wrong":"the input ended within this line"}
    $ printf 'json\n' | depot batch mail.depot
    $ rm script attached

## catalogs in JSON have the lines as the items of a list
    $ cat > lines <<'END'
    > json
    > catalog ann 0
    > script ann examples/documents.sieve
    > deliver ann examples/invoice.eml
    > catalog ann 0
    > catalog ann 1
    > catalog ann 2
    > catalog Ann 0
    > catalog ann
    > END
    $ depot batch mail.depot < lines
    {"catalog":[],"status":0}
    {"status":0}
    {"entries":[{"folder":"Documents","kind":"part","media":"application/pdf","name":"rechnung-2026-0417.pdf","number":1,"octets":9016},{"folder":"INBOX","kind":"message","media":"message/rfc822","name":"","number":2,"octets":19165}],"status":0}
    {"catalog":[{"folder":"Documents","kind":"part","media":"application/pdf","name":"rechnung-2026-0417.pdf","number":1,"octets":9016,"of":[{"number":2,"part":4}],"sha256":"80f8df41adb207ae3eceb0df7cfcf10bdd1d48d1b19423f1f5a03d9b6f7db81e"},{"fields":{"Date":"Mon, 16 Mar 2026 15:40:00 +0100","From":"=?UTF-8?Q?Papier_=26_S=C3=B6hne?= <rechnung@papier.example>","Message-ID":"<2026-0417@papier.example>","Subject":"=?UTF-8?Q?Rechnung_2026-0417?=","To":"\"Huber, Maria\" <huber@hollow.example>"},"folder":"INBOX","kind":"message","media":"message/rfc822","name":"","number":2,"octets":19165,"parts":5,"sha256":"7d7637424eb2617c2fc02cc19c711e6b478716fa422f86263f857a4e2a5bf794","stored":[{"number":1,"part":4}]}],"status":0}
    {"catalog":[{"fields":{"Date":"Mon, 16 Mar 2026 15:40:00 +0100","From":"=?UTF-8?Q?Papier_=26_S=C3=B6hne?= <rechnung@papier.example>","Message-ID":"<2026-0417@papier.example>","Subject":"=?UTF-8?Q?Rechnung_2026-0417?=","To":"\"Huber, Maria\" <huber@hollow.example>"},"folder":"INBOX","kind":"message","media":"message/rfc822","name":"","number":2,"octets":19165,"parts":5,"sha256":"7d7637424eb2617c2fc02cc19c711e6b478716fa422f86263f857a4e2a5bf794","stored":[{"number":1,"part":4}]}],"status":0}
    {"catalog":[],"status":0}
    {"name":"UserName","refused":44,"status":1}
    {"status":2,"wrong":"catalog USER NUMBER"}
    $ depot batch mail.depot < lines | python3 -c 'import json, sys; print([len(json.loads(line).get("catalog", ())) for line in sys.stdin])'
    [2, 0, 0, 4, 3, 2, 0, 0]
    $ depot catalog mail.depot ann > all; printf 'json\ncatalog ann 0\n' | depot batch mail.depot | python3 -c 'import json, sys; print(json.loads(sys.stdin.readline())["catalog"] == [json.loads(line) for line in open("all")])'
    True
    $ rm all

## the line that asks for JSON is the first one, and nothing else
    $ printf 'list ann\njson\n' | depot batch mail.depot
    none
    = 0
    ? the commands are script, code, deliver, list, since, catalog, export, remove and migrate
    = 2
    $ for line in 'json ' ' json' '"json"' JSON 'json ann' jso jsonl; do printf '%s\n' "$line" | depot batch mail.depot; done | sort | uniq -c | tr -s ' '
     7 = 2
     5 ? the commands are script, code, deliver, list, since, catalog, export, remove and migrate
     2 ? words have one space between them, and others stand in quotes
    $ printf 'json\r\nlist ann\n' | depot batch mail.depot
    ? the commands are script, code, deliver, list, since, catalog, export, remove and migrate
    = 2
    none
    = 0
    $ printf json | depot batch mail.depot
    ? the input ended within this line
    = 2
    $ printf '\njson\n' | depot batch mail.depot | grep -c '= 2'
    2
    $ { printf js; sleep 0.3; printf 'on\nlist ann\n'; } | depot batch mail.depot
    {"entries":[],"status":0}

## answers in JSON to deliveries that are ready together, and the same depot as without
    $ : > empty
    $ for n in 1 2 64 65 130; do rm -f mail.depot*; { echo json; yes 'deliver ann empty' | head -n "$n"; } | depot batch mail.depot > got
    > for i in $(seq "$n"); do printf '{"entries":[{"folder":"INBOX","kind":"message","media":"message/rfc822","name":"","number":%s,"octets":0}],"status":0}\n' "$i"; done | cmp - got; depot list mail.depot ann | wc -l; done
    1
    2
    64
    65
    130
    $ { echo json; yes 'deliver ann empty' | head -n 3; echo 'deliver ann missing'; echo 'deliver ann empty'; } | depot batch mail.depot | cut -c 1-40
    {"entries":[{"folder":"INBOX","kind":"me
    {"entries":[{"folder":"INBOX","kind":"me
    {"entries":[{"folder":"INBOX","kind":"me
    {"name":"Read","refused":46,"status":1}
    {"entries":[{"folder":"INBOX","kind":"me
    $ rm empty got

## after a Database in JSON the batch ends, and without a depot no line has an answer
    $ depot script mail.depot ann examples/documents.sieve
    stored
    $ cp mail.depot copy && printf 'json\nlist ann\ndeliver ann examples/invoice.eml\nlist ann\n' > lines
    $ python3 -c 'import sqlite3; d = sqlite3.connect("mail.depot"); d.execute("UPDATE users SET program = ?", (b"x",)); d.commit()'
    $ depot batch mail.depot < lines
    {"entries":[],"status":0}
    {"name":"Database","refused":43,"status":1}
    [1]
    $ printf '%65536s' '' > spaces
    $ depot batch spaces < lines
    2> refused 43 Database
    [1]
    $ rm copy spaces

## bytes that anyone chose are read back from JSON
    $ cat > check.py <<'END'
    > import base64, json, random, subprocess, sys
    > random.seed(8)
    > def octets(value): return value.encode() if isinstance(value, str) else base64.b64decode(value["base64"])
    > def quoted(name): return b'"' + b"".join(b"\\%02x" % c for c in name) + b'"'
    > names = [bytes([c]) for c in range(256) if c not in b'\r\n"\\'] + [b"\xed\xa0\x80", b"\xc3\xbc\xe2\x80\xa8", b"x" * 16384, b"\xff" * 16384]
    > names += [bytes(random.choices([c for c in range(1, 256) if c not in b'\r\n"\\'], k=random.randrange(1, 40))) for _ in range(300)]
    > lines = ["json", "script ann filter"]
    > for i, name in enumerate(names):
    >     open(f"mail/{i}", "wb").write(b'Content-Disposition: attachment; filename="' + name + b'"\n\nx\n')
    >     lines.append(f"deliver ann mail/{i}")
    > text = "\n".join(lines + ["list ann", ""])
    > said = subprocess.run(["depot", "batch", "mail.depot"], input=text.encode(), stdout=subprocess.PIPE, check=True).stdout
    > answers = said.split(b"\n")
    > assert len(answers) == len(names) + 3 and answers[-1] == b"" and said.isascii() is False
    > values = [json.loads(answer) for answer in answers[:-1]]
    > assert all(json.dumps(v, separators=(",", ":"), sort_keys=True, ensure_ascii=False).encode() == a for v, a in zip(values, answers))
    > assert all(v["status"] == 0 for v in values)
    > listed = values[-1]["entries"]
    > assert listed == [e for v in values[1:-1] for e in v["entries"]]
    > plain = subprocess.run(["depot", "list", "mail.depot", "ann"], stdout=subprocess.PIPE, check=True).stdout.split(b"\n")
    > def unquoted(text):
    >     out, i = b"", 0
    >     while i < len(text):
    >         out, i = (out + bytes([int(text[i + 1:i + 3], 16)]), i + 3) if text[i:i + 1] == b"\\" else (out + text[i:i + 1], i + 1)
    >     return out
    > for entry, line in zip(listed, plain):
    >     number, kind, folder, name, media, length = line.split(b'"')[0].split()[0], line.split()[1], line.split(b'"')[1], line.split(b'"')[3], *line.split(b'"')[4].split()
    >     want = (int(number), kind, unquoted(folder), unquoted(name), media, int(length))
    >     assert want == (entry["number"], octets(entry["kind"]), octets(entry["folder"]), octets(entry["name"]), octets(entry["media"]), entry["octets"]), (want, entry)
    > parts = [octets(e["name"]) for e in listed if e["kind"] == "part"]
    > print(len(names), len(parts), sum(a == b for a, b in zip(parts, names)) > 500)
    > END
    $ mkdir mail && printf 'require ["foreverypart", "vnd.depot"];\nforeverypart { store "\303\274"; } discard;\n' > filter
    $ python3 check.py
    556 556 True
    $ rm -r mail filter check.py
