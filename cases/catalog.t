# catalog: a user's entries in JSON, with the messages and parts that belong together

The lines of Python's `json` with the members in the order of their names; docs/INTERFACE.md describes them.

## mails whose documents are stored, and what is above a number
    $ depot script mail.depot ann examples/documents.sieve
    stored
    $ for mail in invoice newsletter ticket; do depot deliver mail.depot ann "examples/$mail.eml"; done
    1 part "Documents"
    2 message "INBOX"
    3 message "INBOX"
    4 part "Documents"
    5 message "INBOX"
    $ depot catalog mail.depot ann
    {"folder":"Documents","kind":"part","media":"application/pdf","name":"rechnung-2026-0417.pdf","number":1,"octets":9016,"of":[{"number":2,"part":4}],"sha256":"80f8df41adb207ae3eceb0df7cfcf10bdd1d48d1b19423f1f5a03d9b6f7db81e"}
    {"fields":{"Date":"Mon, 16 Mar 2026 15:40:00 +0100","From":"=?UTF-8?Q?Papier_=26_S=C3=B6hne?= <rechnung@papier.example>","Message-ID":"<2026-0417@papier.example>","Subject":"=?UTF-8?Q?Rechnung_2026-0417?=","To":"\"Huber, Maria\" <huber@hollow.example>"},"folder":"INBOX","kind":"message","media":"message/rfc822","name":"","number":2,"octets":19165,"parts":5,"sha256":"7d7637424eb2617c2fc02cc19c711e6b478716fa422f86263f857a4e2a5bf794","stored":[{"number":1,"part":4}]}
    {"fields":{"Date":"Fri, 13 Mar 2026 06:00:00 +0000","From":"\"Garden Post\" <weekly@gardenpost.example>","Message-ID":"<20260313-311@gardenpost.example>","Subject":"[garden] What to sow in the second half of March","To":"ann@hollow.example"},"folder":"INBOX","kind":"message","media":"message/rfc822","name":"","number":3,"octets":66866,"parts":3,"sha256":"7ea3858c12e0f8fc6e9f0320cd2772427af6efff01f2f8c0adb55e7a43f2248e","stored":[]}
    {"folder":"Documents","kind":"part","media":"application/pdf","name":"contract 2025.pdf","number":4,"octets":508,"of":[{"number":5,"part":5}],"sha256":"8438e60ee01be3037d06b3e05240ee92ef0a58f54c8a47ae3239b0c1ac3d9201"}
    {"fields":{"Date":"Wed, 18 Mar 2026 09:51:05 +0000","From":"Carol Shaw <carol@hollow.example>","Message-ID":"<c1893@hollow.example>","Subject":"Re: [#4711] Printer on the second floor","To":"help@hollow.example"},"folder":"INBOX","kind":"message","media":"message/rfc822","name":"","number":5,"octets":3678,"parts":6,"sha256":"a2d45095ab21d22ca27511098af6c02b47e9e9ed29cf6a09cba95f5f0d645bc8","stored":[{"number":4,"part":5}]}
    $ depot catalog mail.depot ann 0 > all && depot catalog mail.depot ann | cmp - all
    $ for last in 1 2 3 4 5 6; do depot catalog mail.depot ann $last > new; tail -n +$((last + 1)) all | cmp - new; done
    $ depot catalog mail.depot ann +04 | cut -c 1-60
    {"fields":{"Date":"Wed, 18 Mar 2026 09:51:05 +0000","From":"
    $ depot catalog mail.depot ann 4294967295
    $ depot catalog mail.depot bob
    $ depot catalog mail.depot bob 3
    $ rm all new

## a message without fields, in a folder of no name
    $ echo 'require "fileinto"; fileinto "";' > filter && depot script mail.depot ann filter
    stored
    $ printf x > mail && depot deliver mail.depot ann mail
    1 message ""
    $ depot catalog mail.depot ann
    {"fields":{},"folder":"","kind":"message","media":"message/rfc822","name":"","number":1,"octets":1,"parts":1,"sha256":"2d711642b726b04401627ca9fbac32f5c8530fb1903cc4db02258717921a4881","stored":[]}
    $ : > empty && depot deliver mail.depot bob empty
    1 message "INBOX"
    $ depot catalog mail.depot bob
    {"fields":{},"folder":"INBOX","kind":"message","media":"message/rfc822","name":"","number":1,"octets":0,"parts":1,"sha256":"e3b0c44298fc1c149afbf4c8996fb92427ae41e4649b934ca495991b7852b855","stored":[]}

## the first field of each name, unfolded and as it is
    $ printf 'Subject: =?utf-8?q?a?=\r\n\t b \r\nfrom : Zo\303\253 <z@example.org>\nBcc: n\nsubject: second\nMESSAGE-ID:<1>\nReferences:\n\nTo: body\n' > mail
    $ depot deliver mail.depot ann mail
    1 message "INBOX"
    $ depot catalog mail.depot ann
    {"fields":{"From":"Zoë <z@example.org>","Message-ID":"<1>","References":"","Subject":"=?utf-8?q?a?=\t b"},"folder":"INBOX","kind":"message","media":"message/rfc822","name":"","number":1,"octets":118,"parts":1,"sha256":"5f0df08864c22035d9cf6029de4b345de00c073a3022111631d5fb029901c991","stored":[]}
    $ printf 'To: a@example.org,\n b@example.org\nTo: c@example.org\nCc:\nDate: Thu, 1 Jan 1970 00:00:00 +0000\nIn-Reply-To: <1>\nReferences: <0>\n\t<1>\nX-From: y\n\n' > mail
    $ depot deliver mail.depot ann mail
    2 message "INBOX"
    $ depot catalog mail.depot ann 1
    {"fields":{"Cc":"","Date":"Thu, 1 Jan 1970 00:00:00 +0000","In-Reply-To":"<1>","References":"<0>\t<1>","To":"a@example.org, b@example.org"},"folder":"INBOX","kind":"message","media":"message/rfc822","name":"","number":2,"octets":142,"parts":1,"sha256":"4ae663d25adf0f03f05358fa07c895dfc4f2208f986992de297bbf5277d34b1a","stored":[]}

## bytes that aren't UTF-8, and characters that JSON escapes
    $ cat > filter << 'END'
    > require ["fileinto", "foreverypart", "mime", "variables", "vnd.depot"];
    > if header :matches "Subject" "*" { fileinto "in/${1}"; }
    > foreverypart { if header :mime :type "Content-Disposition" "attachment" { store "Files"; } }
    > discard;
    > END
    $ depot script mail.depot ann filter
    stored
    $ printf 'From: \351@x\nSubject: \377\nContent-Disposition: attachment; filename="\344.txt"\n\none' > mail
    $ depot deliver mail.depot ann mail
    1 message "in/\ff"
    2 part "Files"
    $ printf 'Subject: \303\274 "\\\177/\360\237\230\200\001\nContent-Disposition: attachment; filename="a\\"b\\\\c"\n\ntwo' > mail
    $ depot deliver mail.depot ann mail
    3 message "in/\c3\bc \22\5c\7f/\f0\9f\98\80\01"
    4 part "Files"
    $ depot catalog mail.depot ann | tr '\177' '?'
    {"fields":{"From":{"base64":"6UB4"},"Subject":{"base64":"/w=="}},"folder":{"base64":"aW4v/w=="},"kind":"message","media":"message/rfc822","name":"","number":1,"octets":75,"parts":1,"sha256":"9b71cf48d7c1f9e6c8b80e43184abe50b6ae2610a6d41b808477fe8a37c12e97","stored":[{"number":2,"part":0}]}
    {"folder":"Files","kind":"part","media":"text/plain","name":{"base64":"5C50eHQ="},"number":2,"octets":3,"of":[{"number":1,"part":0}],"sha256":"7692c3ad3540bb803c020b3aee66cd8887123234ea0c6e7143c0add73ff431ed"}
    {"fields":{"Subject":"ü \"\\?/😀\u0001"},"folder":"in/ü \"\\?/😀\u0001","kind":"message","media":"message/rfc822","name":"","number":3,"octets":78,"parts":1,"sha256":"97e096dec6067a6c0da8dc5a799b2f4813f79c17fbaf50610d5ff978a4281e4f","stored":[{"number":4,"part":0}]}
    {"folder":"Files","kind":"part","media":"text/plain","name":"a\"b\\c","number":4,"octets":3,"of":[{"number":3,"part":0}],"sha256":"3fc4ccfe745870e2c0d99f71f30ff0656c8dedd41cc1d7d3d376b0dbe685e2f3"}

## the same content in several mails, and twice in one
    $ cat > filter << 'END'
    > require ["foreverypart", "mime", "vnd.depot"];
    > foreverypart { if header :mime :contenttype "Content-Type" "application/pdf" { store "PDF"; } }
    > END
    $ depot script mail.depot ann filter
    stored
    $ printf 'Content-Type: multipart/mixed; boundary=b\n\n--b\nContent-Type: application/pdf\n\none\n--b\nContent-Type: application/pdf\nContent-Transfer-Encoding: base64\n\nb25l\n--b--\n' > twice
    $ printf 'Content-Type: application/pdf\n\none' > once
    $ for mail in twice once twice; do depot deliver mail.depot ann $mail; done
    1 part "PDF"
    2 part "PDF"
    3 message "INBOX"
    4 part "PDF"
    5 message "INBOX"
    6 part "PDF"
    7 part "PDF"
    8 message "INBOX"
    $ depot catalog mail.depot ann > all; sed 's/.*"number":\([0-9]*\).*\("of":[^]]*]\|"stored":[^]]*]\).*/\1 \2/' all
    1 "of":[{"number":3,"part":1},{"number":5,"part":0},{"number":8,"part":1}]
    2 "of":[{"number":3,"part":1},{"number":5,"part":0},{"number":8,"part":1}]
    3 "stored":[{"number":1,"part":1},{"number":2,"part":1},{"number":4,"part":1},{"number":6,"part":1},{"number":7,"part":1}]
    4 "of":[{"number":3,"part":1},{"number":5,"part":0},{"number":8,"part":1}]
    5 "stored":[{"number":1,"part":0},{"number":2,"part":0},{"number":4,"part":0},{"number":6,"part":0},{"number":7,"part":0}]
    6 "of":[{"number":3,"part":1},{"number":5,"part":0},{"number":8,"part":1}]
    7 "of":[{"number":3,"part":1},{"number":5,"part":0},{"number":8,"part":1}]
    8 "stored":[{"number":1,"part":1},{"number":2,"part":1},{"number":4,"part":1},{"number":6,"part":1},{"number":7,"part":1}]
    $ sed -n '1p; 3p' all; rm all
    {"folder":"PDF","kind":"part","media":"application/pdf","name":"","number":1,"octets":3,"of":[{"number":3,"part":1},{"number":5,"part":0},{"number":8,"part":1}],"sha256":"7692c3ad3540bb803c020b3aee66cd8887123234ea0c6e7143c0add73ff431ed"}
    {"fields":{},"folder":"INBOX","kind":"message","media":"message/rfc822","name":"","number":3,"octets":162,"parts":3,"sha256":"e8923666b448fda07a1869946737f4a6da6522469b8d99864c84d211d2174c2b","stored":[{"number":1,"part":1},{"number":2,"part":1},{"number":4,"part":1},{"number":6,"part":1},{"number":7,"part":1}]}

## messages and parts that are removed, and those of another user
    $ for user in ann bob; do depot script mail.depot $user examples/documents.sieve && depot deliver mail.depot $user examples/invoice.eml; done
    stored
    1 part "Documents"
    2 message "INBOX"
    stored
    1 part "Documents"
    2 message "INBOX"
    $ depot deliver mail.depot ann examples/invoice.eml
    3 part "Documents"
    4 message "INBOX"
    $ depot remove mail.depot ann 2
    removed 2
    $ depot catalog mail.depot ann | grep -o '"of":[^]]*]\|"stored":[^]]*]'
    "of":[{"number":4,"part":4}]
    "of":[{"number":4,"part":4}]
    "stored":[{"number":1,"part":4},{"number":3,"part":4}]
    $ depot remove mail.depot ann 1 && depot remove mail.depot ann 4
    removed 1
    removed 4
    $ depot catalog mail.depot ann | grep -o '"number":.*'
    "number":3,"octets":9016,"of":[],"sha256":"80f8df41adb207ae3eceb0df7cfcf10bdd1d48d1b19423f1f5a03d9b6f7db81e"}
    $ depot remove mail.depot bob 1 && depot catalog mail.depot bob | grep -o '"number":.*'
    removed 1
    "number":2,"octets":19165,"parts":5,"sha256":"7d7637424eb2617c2fc02cc19c711e6b478716fa422f86263f857a4e2a5bf794","stored":[]}

## a mail within a mail, whose parts are parts of both
    $ echo 'require ["foreverypart", "vnd.depot"]; foreverypart { store "Parts"; }' > filter && depot script mail.depot ann filter
    stored
    $ depot deliver mail.depot ann examples/forwarded.eml
    1 part "Parts"
    2 part "Parts"
    3 part "Parts"
    4 part "Parts"
    5 message "INBOX"
    $ depot catalog mail.depot ann | grep -o '"of":[^]]*]\|"stored":[^]]*]'
    "of":[{"number":5,"part":0}]
    "of":[{"number":5,"part":1}]
    "of":[{"number":5,"part":2}]
    "of":[{"number":5,"part":3}]
    "stored":[{"number":1,"part":0},{"number":2,"part":1},{"number":3,"part":2},{"number":4,"part":3}]
    $ depot export mail.depot ann 3 raw > mail && echo 'keep;' > filter && depot script mail.depot ann filter && depot deliver mail.depot ann mail
    stored
    6 message "INBOX"
    $ depot catalog mail.depot ann | grep -o '"of":[^]]*]\|"stored":[^]]*]'
    "of":[{"number":5,"part":0}]
    "of":[{"number":5,"part":1}]
    "of":[{"number":5,"part":2}]
    "of":[{"number":5,"part":3},{"number":6,"part":0}]
    "stored":[{"number":1,"part":0},{"number":2,"part":1},{"number":3,"part":2},{"number":4,"part":3}]
    "stored":[{"number":4,"part":0}]

## a catalog makes the depot where there is none, and changes none
    $ depot catalog mail.depot ann 7
    $ depot deliver mail.depot ann examples/ticket.eml
    1 message "INBOX"
    $ depot inspect mail.depot > before && sha256sum mail.depot > sum
    $ depot catalog mail.depot ann | wc -l
    1
    $ sha256sum -c --quiet sum && depot inspect mail.depot | cmp - before && rm before sum

## what is refused
    $ depot catalog mail.depot a/b
    2> refused 44 UserName
    [1]
    $ depot catalog mail.depot '' 0
    2> refused 44 UserName
    [1]
    $ depot catalog mail.depot Ann 4294967295
    2> refused 44 UserName
    [1]
    $ printf '%65536s' '' > spaces
    $ depot catalog spaces ann
    2> refused 43 Database
    [1]
    $ depot catalog none/mail.depot Ann
    2> refused 43 Database
    [1]
    $ depot deliver mail.depot ann examples/invoice.eml
    1 message "INBOX"
    $ depot catalog mail.depot ann > /dev/full
    2> refused 45 Write
    [1]

## a content that the disk changed
Only if: python3 -c 'import sqlite3' # there is no sqlite3 for python3
    $ for n in 1 2; do printf 'Subject: %s\n\n' $n > mail && depot deliver mail.depot ann mail && depot deliver mail.depot bob examples/invoice.eml; done
    1 message "INBOX"
    1 message "INBOX"
    2 message "INBOX"
    2 message "INBOX"
    $ cat > alter << 'END'
    > import sqlite3
    > file = sqlite3.connect("mail.depot")
    > file.execute("UPDATE contents SET octets = zeroblob(12) WHERE length(octets) = 12")
    > file.commit()
    > END
    $ python3 alter
    $ depot catalog mail.depot ann
    2> refused 43 Database
    [1]
    $ depot catalog mail.depot bob | wc -l
    2

## random mails and filters: each line is what list, export and parts have for it
    $ "$TOP/cases/catalogs" depot
    60 mails, 0 lines of their catalogs differ
