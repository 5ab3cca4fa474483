# What filters can't look into: names of a file that are written so that a test of names doesn't find them, each virus.exe to a reader
# of mail, and mails whose parts aren't read

## names that the filter files apart
    $ cat > try << 'END'
    > while IFS= read -r field; do
    >     printf 'Content-Type: multipart/mixed; boundary=b\n\n--b\n%b\n\nMZ\n--b--\n' "$field" > mail
    >     depot eval "$1" mail | sed -n 1p
    > done
    > END
    $ sh try examples/gallery/disguised.sieve << 'END' | sort | uniq -c | sed 's/^ *//'
    > Content-Disposition: attachment; filename*=UTF-8''virus.exe
    > Content-Disposition: attachment; FILENAME*=utf-8''virus%2Eexe
    > Content-Disposition: attachment; filename*0="vir"; filename*1="us.exe"
    > Content-Disposition: attachment; filename*0*=UTF-8''vir; filename*1*=us.exe
    > Content-Disposition: attachment; filename="=?UTF-8?B?dmlydXMuZXhl?="
    > Content-Disposition: attachment; filename==?UTF-8?Q?virus.exe?=
    > Content-Disposition: attachment; filename="=?UTF-8?Q?virus?= =?UTF-8?Q?.exe?="
    > Content-Type: application/octet-stream; name*=UTF-8''virus.exe
    > Content-Type: application/octet-stream; name="=?UTF-8?B?dmlydXMuZXhl?="
    > Content-Type: application/octet-stream; name*0=vir; name*1=us.exe
    > Content-Disposition: attachment; filename*=\n UTF-8''virus.exe
    > Content-Disposition: attachment; filename="=?UTF-8?B?dmlydXMu?=\n =?UTF-8?B?ZXhl?="
    > Content-Disposition: attachment; filename=a.txt; filename*=UTF-8''virus.exe
    > Content-Type: multipart/mixed; boundary=c\n\n--c\nContent-Disposition: attachment; filename*=UTF-8''virus.exe\n\nMZ\n--c--
    > Content-Type: message/rfc822\n\nContent-Disposition: attachment; filename*=UTF-8''virus.exe
    > Content-Disposition: attachment; filename=a.txt\nContent-Disposition: attachment; filename*0=vir; filename*1=us.exe
    > content-disposition: attachment; filename*=UTF-8''virus.exe
    > Content-Disposition: attachment; filename* =UTF-8''virus.exe
    > Content-Disposition: attachment; filename='virus.exe'
    > Content-Disposition: attachment; filename="virus.exe "
    > Content-Disposition: attachment; filename="virus.exe."
    > Content-Disposition: attachment; filename=a.txt; filename=virus.exe
    > END
    22 fileinto "Disguised"

## names that are read
    $ cat > try << 'END'
    > while IFS= read -r field; do
    >     printf 'Content-Type: multipart/mixed; boundary=b\n\n--b\n%s\n\nMZ\n--b--\n' "$field" > mail
    >     depot eval "$1" mail | sed -n 1p
    > done
    > END
    $ cat > names << 'END'
    > Content-Disposition: attachment; filename="virus.ex\e"
    > Content-Disposition: attachment; filename(x)=virus.exe
    > END
    $ sh try examples/gallery/disguised.sieve < names
    fileinto "Disguised"
    fileinto "Disguised"
    $ sh try examples/attachments.sieve < names
    fileinto "Suspicious"
    fileinto "Suspicious"

## names that a test of the whole field finds
    $ cat > try << 'END'
    > while IFS= read -r field; do
    >     printf 'Content-Type: multipart/mixed; boundary=b\n\n--b\n%b\n\nMZ\n--b--\n' "$field" > mail
    >     depot eval "$1" mail | sed -n 1p
    > done
    > END
    $ cat > names << 'END'
    > Content-Disposition: attachment; x; filename="virus.exe"
    > Content-Disposition: attachment; =x; filename="virus.exe"
    > Content-Disposition: attachment; a b; filename="virus.exe"
    > Content-Disposition: attachment; size=1 2; filename="virus.exe"
    > Content-Disposition: attachment; f\0303\0266=1; filename="virus.exe"
    > Content-Disposition: attachment; size=; filename="virus.exe"
    > Content-Disposition: attachment; "size"=1; filename="virus.exe"
    > Content-Disposition: attachment; a="b; filename="virus.exe"
    > Content-Disposition: filename="virus.exe"
    > Content-Disposition: ; filename="virus.exe"
    > Content-Disposition: "attachment"; filename="virus.exe"
    > Content-Disposition: attachment/x; filename="virus.exe"
    > Content-Disposition: attachment filename="virus.exe"
    > Content-Disposition: attachment, filename="virus.exe"
    > Content-Disposition: attachment: filename="virus.exe"
    > Content-Disposition: =?UTF-8?Q?attachment?=; filename="virus.exe"
    > Content-Disposition: attachment; filename=virus invoice.exe
    > Content-Disposition: attachment; filename=invoice(1).exe
    > Content-Disposition: attachment; filename=virus;1.exe
    > Content-Disposition: attachment; filename=virus"1".exe
    > Content-Disposition: attachment; filename="virus.exe
    > Content-Disposition: attachment; filename=<virus.exe>
    > Content-Disposition: attachment; filename=[virus.exe]
    > Content-Disposition: attachment; filename=virus.exe,
    > Content-Disposition: attachment; filename="virus.exe\t"
    > Content-Disposition: attachment; filename="virus.exe\0302\0240"
    > Content-Disposition: attachment; filename="virus.exe/"
    > Content-Disposition: attachment; filename="virus.exe\0000"
    > Content-Disposition: attachment; filename="virus.exe\0013"
    > Content-Disposition: attachment; filename="virus.exe\0342\0200\0213"
    > Content-Disposition: attachment; filename="virus.exe::$DATA"
    > Content-Disposition: attachment; filename=\0342\0200\0234virus.exe\0342\0200\0235
    > Content-Disposition: attachment; filename:"virus.exe"
    > Content-Disposition: attachment; file name="virus.exe"
    > Content-Disposition: attachment; "filename"="virus.exe"
    > Content-Disposition: attachment; filename\0000="virus.exe"
    > Content-Disposition: attachment; \0342\0200\0213filename="virus.exe"
    > Content-Disposition: attachment; (filename="virus.exe"
    > Content-Disposition: attachment; filename="virus.exe" x; size=1
    > Content-Type: application/octet-stream name="virus.exe"
    > Content-Type: application; name="virus.exe"
    > Content-Type: name="virus.exe"
    > Content-Type: application/octet-stream; charset=; name="virus.exe"
    > END
    $ sh try examples/gallery/disguised.sieve < names | uniq -c | sed 's/^ *//'
    43 fileinto "Disguised"
    $ sh try examples/attachments.sieve < names | uniq -c | sed 's/^ *//'
    43 fileinto "Suspicious"

## names that no filter of the examples finds
Two that are folded within quotation marks, two fields whose names are others by an octet, and a description.

    $ cat > try << 'END'
    > while IFS= read -r field; do
    >     printf 'Content-Type: multipart/mixed; boundary=b\n\n--b\n%b\n\nMZ\n--b--\n' "$field" > mail
    >     depot eval "$1" mail | sed -n 1p
    > done
    > END
    $ cat > names << 'END'
    > Content-Disposition: attachment; filename="virus.e\n xe"
    > Content-Disposition: attachment; filename="virus.\n\texe"
    > \0357\0273\0277Content-Disposition: attachment; filename="virus.exe"
    > Content-Disposition\0302\0240: attachment; filename="virus.exe"
    > Content-Type: application/octet-stream\nContent-Description: virus.exe
    > END
    $ sh try examples/gallery/disguised.sieve < names
    keep
    keep
    keep
    keep
    keep
    $ sh try examples/attachments.sieve < names
    keep
    keep
    keep
    keep
    keep

## mails whose parts aren't read
A line has the header of a part that has an attachment in it, or that is meant to have one.

    $ cat > try << 'END'
    > while IFS= read -r header; do
    >     printf 'Content-Type: multipart/mixed; boundary=b\n\n--b\n%b\n\n--c\nContent-Type: a/b; name=virus.exe\n\nMZ\n--c--\n--b--\n' "$header" > mail
    >     depot eval "$1" mail | sed -n 1p
    > done
    > END
    $ cat > headers << 'END'
    > Content-Type: multipart/mixed; boundary*=c
    > Content-Type: multipart/mixed; boundary*0=c
    > Content-Type: multipart/mixed
    > Content-Type: multipart/mixed; boundary=d
    > Content-Type: multipart/mixed; boundary=""
    > Content-Type: multipart/mixed; x; boundary=c
    > Content-Type: multipart/mixed; boundary=c\nContent-Transfer-Encoding: base64
    > Content-Type: multipart/mixed; boundary=c\nContent-Transfer-Encoding: quoted-printable
    > Content-Type: multipart/mixed; boundary=c\nContent-Transfer-Encoding: 8-bit
    > Content-Type: multipart/mixed; boundary=c\nContent-Transfer-Encoding: "7bit"
    > Content-Type: multipart/mixed; boundary=c\nContent-Transfer-Encoding: 7bit charset=utf-8
    > Content-Type: text/plain\nContent-Type: multipart/mixed; boundary=c
    > Content-Type: message/rfc822\nContent-Transfer-Encoding: base64
    > Content-Type: message/rfc822\nContent-Transfer-Encoding: quoted-printable
    > Content-Type: message/rfc822\nContent-Transfer-Encoding: 8-bit
    > Content-Type: message/global
    > Content-Type: message/global\nContent-Transfer-Encoding: base64
    > END
    $ sh try examples/gallery/unseen.sieve < headers | uniq -c | sed 's/^ *//'
    17 fileinto "Unseen"

Of others the filter says nothing: a message in a multipart/digest that says nothing of its type, and types that aren't messages.

    $ cat > headers << 'END'
    > Content-Type: multipart/digest; boundary=d\n\n--d\nContent-Transfer-Encoding: base64
    > Content-Type: application/ms-tnef; name=winmail.dat
    > Content-Type: application/pkcs7-mime; name=smime.p7m
    > Content-Type: multipart/encrypted; boundary=c
    > Content-Type: message/partial; number=1; total=2; id=x
    > Content-Type: message/external-body; access-type=url
    > Content-Type: application/octet-stream; name=mail.eml
    > Content-Type: text/plain\n\nbegin 644 virus.exe
    > END
    $ sh try examples/gallery/unseen.sieve < headers | uniq -c | sed 's/^ *//'
    8 keep

## more than 32 levels
    $ step=10
    > while [ $step -lt 50 ]; do
    >     printf 'Content-Type: multipart/mixed; boundary=b%d\n\n--b%d\n' $step $step
    >     step=$((step + 1))
    > done > mail
    $ printf 'Content-Disposition: attachment; filename=virus.exe\n\nMZ\n' >> mail
    $ depot parts mail | wc -l
    32
    $ depot eval examples/attachments.sieve mail | sed -n 1p
    keep
    $ depot eval examples/gallery/unseen.sieve mail | sed -n 1p
    fileinto "Unseen"

## fields that are compared as they were sent
    $ cat > try << 'END'
    > printf "$1" > mail
    > printf 'require ["fileinto", "mime", "variables"]; if header %s { fileinto "Found"; }' "$2" > filter.sieve
    > depot eval filter.sieve mail | sed -n 1p
    > END
    $ sh try 'Subject: two\n words\n\n' ':contains "Subject" "two words"'
    fileinto "Found"
    $ sh try 'Subject: two\n\twords\n\n' ':contains "Subject" "two words"'
    keep
    $ sh try 'Subject: two\n\twords\n\n' ':matches "Subject" "*two?words*"'
    fileinto "Found"
    $ sh try 'Subject: =?UTF-8?B?R3LDvMOfZQ==?=\n\n' ':contains "Subject" "Grüße"'
    keep
    $ sh try 'Subject: =?UTF-8?Q?Gr=C3=BC=C3=9Fe?=\n\n' ':contains "Subject" "Grüße"'
    keep
    $ sh try 'Subject: Gr\303\274\303\237e\n\n' ':contains "Subject" "Grüße"'
    fileinto "Found"
    $ sh try 'Subject: GR\303\234\303\237E\n\n' ':contains "Subject" "Grüße"'
    keep
    $ sh try 'Subject: x\n\n' ':mime :type :contains "Content-Type" ""'
    keep
    $ sh try 'Content-Disposition: attachment; filename=my invoice.exe\n\n' ':mime :param "filename" "Content-Disposition" "my"'
    fileinto "Found"
    $ sh try 'Content-Disposition: attachment; filename=invoice(1).exe\n\n' ':mime :param "filename" "Content-Disposition" "invoice"'
    fileinto "Found"
    $ sh try 'Content-Transfer-Encoding: x-none\nContent-Type: text/plain\n\n' ':mime :contenttype "Content-Type" "text/plain"'
    fileinto "Found"

## parts that another reader would find
    $ printf 'Content-Type: multipart/mixed; boundary=b\n\n--b more\nContent-Type: a/b; name=virus.exe\n\nMZ\n--b--\n' > mail
    $ depot parts mail | cut -d' ' -f1-4
    0 1 multipart/mixed 53
    $ depot eval examples/gallery/unseen.sieve mail | sed -n 1p
    fileinto "Unseen"
    $ printf 'Content-Type: multipart/mixed; boundary=b\n\n--b\nthe text\n--b--\n' > mail
    $ depot parts mail | cut -d' ' -f1-4
    0 1 multipart/mixed 19
    1 2 text/plain 0
    $ printf 'Content-Type: multipart/mixed; boundary=b\r\r\n\r\r\n--b\r\r\n\r\r\nA\r\r\n--b--\r\r\n' > mail
    $ depot parts mail | cut -d' ' -f1-4
    0 1 multipart/mixed 0
    $ printf 'Content-Type: multipart/mixed; boundary=b\r\r--b\r\rA\r--b--\r' > mail
    $ depot parts mail | cut -d' ' -f1-4
    0 1 multipart/mixed 0
    $ printf 'Content-Transfer-Encoding: base64\n\nZg==Zg==' > mail
    $ depot parts mail | cut -d' ' -f1-4
    0 1 text/plain 1

## a parameter whose name has an asterisk is found by its whole name
    $ printf 'Content-Disposition: attachment; filename*=x\n\n' > mail
    $ cat > filter.sieve << 'END'
    > require ["mime", "fileinto"];
    > if header :mime :param "filename*" "Content-Disposition" "x" { fileinto "Found"; }
    > END
    $ depot eval filter.sieve mail
    fileinto "Found"
    charged 57 of 1047
