# release/make_deb, which makes the Debian package, with a small file in the place of the program

## a package, made twice
Only if: command -v dpkg-deb # there is no dpkg-deb
    $ mkdir tree && cp -R "$TOP"/[RS]*.md "$TOP"/LICENSE* "$TOP/contrib" "$TOP/docs" "$TOP/examples" tree/
    $ mkdir tree/release && cp -R "$TOP/release/make_deb" "$TOP/release/manual" "$TOP/release/README.md" "$TOP/release/debian" tree/release/
    $ printf '# Changes\n\n## 9.8.7, 2031-05-06\n\n- One change.\n' > tree/CHANGELOG.md
    $ printf 'program none\n' > tree/release/RELEASE
    $ printf '#!/bin/sh\n# GLIBC_2.4 GLIBC_2.34 GLIBC_2.17\necho depot 9.8.7, of these cases >&2\n' > program
    $ tree/release/make_deb --program program
    ./depot_9.8.7_amd64.deb
    $ dpkg-deb -f depot_9.8.7_amd64.deb Package Version Architecture Depends Recommends Suggests
    Package: depot
    Version: 9.8.7
    Architecture: amd64
    Depends: libc6 (>= 2.34)
    Recommends: python3
    Suggests: postfix
    $ dpkg-deb -c depot_9.8.7_amd64.deb | awk '!/depot\/(docs|examples)\/./ { print $1, $2, $4, $6 }'
    drwxr-xr-x root/root 2031-05-06 ./
    drwxr-xr-x root/root 2031-05-06 ./usr/
    drwxr-xr-x root/root 2031-05-06 ./usr/bin/
    -rwxr-xr-x root/root 2031-05-06 ./usr/bin/depot
    -rwxr-xr-x root/root 2031-05-06 ./usr/bin/depot-ask
    -rwxr-xr-x root/root 2031-05-06 ./usr/bin/depot-deliver
    -rwxr-xr-x root/root 2031-05-06 ./usr/bin/depot-each-mailbox
    -rwxr-xr-x root/root 2031-05-06 ./usr/bin/depot-expect
    -rwxr-xr-x root/root 2031-05-06 ./usr/bin/depot-hold
    -rwxr-xr-x root/root 2031-05-06 ./usr/bin/depot-into-volumes
    -rwxr-xr-x root/root 2031-05-06 ./usr/bin/depot-refile
    -rwxr-xr-x root/root 2031-05-06 ./usr/bin/depot-refilter
    -rwxr-xr-x root/root 2031-05-06 ./usr/bin/depot-scrub
    -rwxr-xr-x root/root 2031-05-06 ./usr/bin/depot-to-maildir
    -rwxr-xr-x root/root 2031-05-06 ./usr/bin/depot-try
    drwxr-xr-x root/root 2031-05-06 ./usr/lib/
    drwxr-xr-x root/root 2031-05-06 ./usr/lib/depot/
    -rwxr-xr-x root/root 2031-05-06 ./usr/lib/depot/ask
    -rw-r--r-- root/root 2031-05-06 ./usr/lib/depot/common.py
    -rwxr-xr-x root/root 2031-05-06 ./usr/lib/depot/deliver
    -rwxr-xr-x root/root 2031-05-06 ./usr/lib/depot/each_mailbox
    -rwxr-xr-x root/root 2031-05-06 ./usr/lib/depot/expect
    -rwxr-xr-x root/root 2031-05-06 ./usr/lib/depot/hold
    -rwxr-xr-x root/root 2031-05-06 ./usr/lib/depot/into_volumes
    -rwxr-xr-x root/root 2031-05-06 ./usr/lib/depot/refile
    -rwxr-xr-x root/root 2031-05-06 ./usr/lib/depot/refilter
    -rwxr-xr-x root/root 2031-05-06 ./usr/lib/depot/scrub
    -rwxr-xr-x root/root 2031-05-06 ./usr/lib/depot/test_deliver
    -rwxr-xr-x root/root 2031-05-06 ./usr/lib/depot/test_hold
    -rwxr-xr-x root/root 2031-05-06 ./usr/lib/depot/to_maildir
    -rwxr-xr-x root/root 2031-05-06 ./usr/lib/depot/try
    drwxr-xr-x root/root 2031-05-06 ./usr/lib/python3/
    drwxr-xr-x root/root 2031-05-06 ./usr/lib/python3/dist-packages/
    -rw-r--r-- root/root 2031-05-06 ./usr/lib/python3/dist-packages/depot.py
    drwxr-xr-x root/root 2031-05-06 ./usr/lib/systemd/
    drwxr-xr-x root/root 2031-05-06 ./usr/lib/systemd/system/
    -rw-r--r-- root/root 2031-05-06 ./usr/lib/systemd/system/depot-hold.service
    drwxr-xr-x root/root 2031-05-06 ./usr/lib/tmpfiles.d/
    -rw-r--r-- root/root 2031-05-06 ./usr/lib/tmpfiles.d/depot.conf
    drwxr-xr-x root/root 2031-05-06 ./usr/share/
    drwxr-xr-x root/root 2031-05-06 ./usr/share/bash-completion/
    drwxr-xr-x root/root 2031-05-06 ./usr/share/bash-completion/completions/
    -rw-r--r-- root/root 2031-05-06 ./usr/share/bash-completion/completions/depot
    drwxr-xr-x root/root 2031-05-06 ./usr/share/doc/
    drwxr-xr-x root/root 2031-05-06 ./usr/share/doc/depot/
    -rw-r--r-- root/root 2031-05-06 ./usr/share/doc/depot/CHANGELOG.md
    -rw-r--r-- root/root 2031-05-06 ./usr/share/doc/depot/LICENSE
    -rw-r--r-- root/root 2031-05-06 ./usr/share/doc/depot/LICENSE-APACHE
    -rw-r--r-- root/root 2031-05-06 ./usr/share/doc/depot/LICENSE-MIT
    -rw-r--r-- root/root 2031-05-06 ./usr/share/doc/depot/README.Debian
    -rw-r--r-- root/root 2031-05-06 ./usr/share/doc/depot/README.md
    -rw-r--r-- root/root 2031-05-06 ./usr/share/doc/depot/SECURITY.md
    -rw-r--r-- root/root 2031-05-06 ./usr/share/doc/depot/changelog.gz
    -rw-r--r-- root/root 2031-05-06 ./usr/share/doc/depot/copyright
    drwxr-xr-x root/root 2031-05-06 ./usr/share/doc/depot/docs/
    drwxr-xr-x root/root 2031-05-06 ./usr/share/doc/depot/examples/
    drwxr-xr-x root/root 2031-05-06 ./usr/share/doc/depot/release/
    -rw-r--r-- root/root 2031-05-06 ./usr/share/doc/depot/release/README.md
    drwxr-xr-x root/root 2031-05-06 ./usr/share/lintian/
    drwxr-xr-x root/root 2031-05-06 ./usr/share/lintian/overrides/
    -rw-r--r-- root/root 2031-05-06 ./usr/share/lintian/overrides/depot
    drwxr-xr-x root/root 2031-05-06 ./usr/share/man/
    drwxr-xr-x root/root 2031-05-06 ./usr/share/man/man1/
    -rw-r--r-- root/root 2031-05-06 ./usr/share/man/man1/depot-ask.1.gz
    -rw-r--r-- root/root 2031-05-06 ./usr/share/man/man1/depot-deliver.1.gz
    -rw-r--r-- root/root 2031-05-06 ./usr/share/man/man1/depot-each-mailbox.1.gz
    -rw-r--r-- root/root 2031-05-06 ./usr/share/man/man1/depot-expect.1.gz
    -rw-r--r-- root/root 2031-05-06 ./usr/share/man/man1/depot-hold.1.gz
    -rw-r--r-- root/root 2031-05-06 ./usr/share/man/man1/depot-into-volumes.1.gz
    -rw-r--r-- root/root 2031-05-06 ./usr/share/man/man1/depot-refile.1.gz
    -rw-r--r-- root/root 2031-05-06 ./usr/share/man/man1/depot-refilter.1.gz
    -rw-r--r-- root/root 2031-05-06 ./usr/share/man/man1/depot-scrub.1.gz
    -rw-r--r-- root/root 2031-05-06 ./usr/share/man/man1/depot-to-maildir.1.gz
    -rw-r--r-- root/root 2031-05-06 ./usr/share/man/man1/depot-try.1.gz
    -rw-r--r-- root/root 2031-05-06 ./usr/share/man/man1/depot.1.gz
    drwxr-xr-x root/root 2031-05-06 ./usr/share/zsh/
    drwxr-xr-x root/root 2031-05-06 ./usr/share/zsh/vendor-completions/
    -rw-r--r-- root/root 2031-05-06 ./usr/share/zsh/vendor-completions/_depot

What is packed is what the repository has.

    $ dpkg-deb -x depot_9.8.7_amd64.deb out && mv out/usr/share/doc/depot papers
    $ cmp program out/usr/bin/depot && gunzip -c out/usr/share/man/man1/depot.1.gz | cmp - "$TOP/docs/depot.1"
    $ for it in README.md SECURITY.md LICENSE LICENSE-MIT LICENSE-APACHE release/README.md; do cmp "papers/$it" "$TOP/$it"; done
    $ diff -r -x depot.1 papers/docs "$TOP/docs"
    $ diff -r -x make papers/examples "$TOP/examples"
    $ gunzip -c papers/changelog.gz
    depot (9.8.7) unstable; urgency=medium
    
      * One change.
    
     -- Borerrivet maintainers <maintainers@users.noreply.borerrivet.example>  Tue, 06 May 2031 00:00:00 +0000
    
    $ for script in out/usr/lib/depot/*[!y]; do
    >     sed 's|/usr/bin/env python3|/usr/bin/python3|; s|/usr/local/bin/depot|/usr/bin/depot|' "$TOP/contrib/${script##*/}" | cmp - "$script"
    > done
    $ cmp out/usr/lib/depot/common.py "$TOP/contrib/common.py" && cmp out/usr/lib/tmpfiles.d/depot.conf "$TOP/release/debian/tmpfiles"
    $ cmp out/usr/lib/python3/dist-packages/depot.py "$TOP/contrib/python/depot.py"
    $ cmp out/usr/share/bash-completion/completions/depot "$TOP/contrib/depot.bash"
    $ cmp out/usr/share/zsh/vendor-completions/_depot "$TOP/contrib/_depot"
    $ grep -h -e '^program=.*DEPOT:-' -e 'setdefault("DEPOT"' out/usr/lib/depot/deliver out/usr/lib/depot/hold out/usr/lib/depot/each_mailbox
    program=${DEPOT:-/usr/bin/depot}
    os.environ.setdefault("DEPOT", "/usr/bin/depot")
    os.environ.setdefault("DEPOT", "/usr/bin/depot")

Each script but the tests has a name on the PATH, and a manual page of what stands at its head.

    $ cat out/usr/bin/depot-to-maildir
    #!/bin/sh
    exec /usr/lib/depot/to_maildir "$@"
    $ for page in out/usr/share/man/man1/depot-*; do
    >     gunzip -c "$page" | awk '/^\.TH/ { day = $4 } /^\.SH/ { parts = parts " " $2 } last == ".SH NAME" { print $1, day } { last = $0 } END { print parts }'
    > done
    depot\-ask "2031-05-06"
     NAME SYNOPSIS DESCRIPTION SEE
    depot\-deliver "2031-05-06"
     NAME SYNOPSIS DESCRIPTION SEE
    depot\-each\-mailbox "2031-05-06"
     NAME SYNOPSIS DESCRIPTION SEE
    depot\-expect "2031-05-06"
     NAME SYNOPSIS DESCRIPTION SEE
    depot\-hold "2031-05-06"
     NAME SYNOPSIS DESCRIPTION SEE
    depot\-into\-volumes "2031-05-06"
     NAME SYNOPSIS DESCRIPTION SEE
    depot\-refile "2031-05-06"
     NAME SYNOPSIS DESCRIPTION SEE
    depot\-refilter "2031-05-06"
     NAME SYNOPSIS DESCRIPTION SEE
    depot\-scrub "2031-05-06"
     NAME SYNOPSIS DESCRIPTION SEE
    depot\-to\-maildir "2031-05-06"
     NAME SYNOPSIS DESCRIPTION SEE
    depot\-try "2031-05-06"
     NAME SYNOPSIS DESCRIPTION SEE
    $ gunzip -c out/usr/share/man/man1/depot-refilter.1.gz | sed -n '/SYNOPSIS/,/^\.fi/p'
    .SH SYNOPSIS
    .nf
    depot\-refilter DEPOT USER SCRIPT
    depot\-refilter DEPOT USER SCRIPT \-\-apply NEW
    .fi
    $ "$TOP/contrib/refilter" --help | sed -n '/^The first form/,$p' | sed 's/[`-]//g' | tr -s ' \n' ' ' > help
    $ gunzip -c out/usr/share/man/man1/depot-refilter.1.gz | sed -n '/^The first form/,/^\.SH SEE/p' | sed '/^\./d; s/[\`-]//g' | tr -s ' \n' ' ' | cmp - help
    $ rm -r out papers help

The same octets come from another folder, with other rights and times, under another umask and in another time zone.

    $ mkdir -p another/place && mv tree another/place/ && chmod -R go-rwx another && touch another/place/tree/docs/*
    $ mkdir again && cd again && umask 077 && TZ=Asia/Tokyo GZIP=-1 ../another/place/tree/release/make_deb --program ../program .
    ./depot_9.8.7_amd64.deb
    $ cmp depot_9.8.7_amd64.deb again/depot_9.8.7_amd64.deb
    $ rm -r again another depot_9.8.7_amd64.deb

## the program of a release is unpacked and compared
Only if: command -v dpkg-deb && command -v xz # there is no dpkg-deb or no xz
    $ mkdir tree && cp -R "$TOP"/*.md "$TOP"/LICENSE* "$TOP/contrib" "$TOP/docs" "$TOP/examples" tree/
    $ mkdir tree/release && cp -R "$TOP/release/make_deb" "$TOP/release/manual" "$TOP/release/README.md" "$TOP/release/unpack" "$TOP/release/debian" tree/release/
    $ printf '#!/bin/sh\necho a program\n' > program
    $ xz < program > tree/release/program.xz
    $ version=$(sed -n 's/^## \([0-9.]*\), .*/\1/p' tree/CHANGELOG.md | head -n 1)
    > printf 'version %s\nprogram program.xz\nsha256 %s\nprocessor x86-64-v2\nglibc 2.34\n' "$version" "$(sha256sum < program | cut -c 1-64)" > tree/release/RELEASE
    $ tree/release/make_deb > made && dpkg-deb -x "$(cat made)" out && cmp program out/usr/bin/depot
    $ rm -r out depot_*_amd64.deb made

    $ echo another | xz > tree/release/program.xz
    $ tree/release/make_deb 2>&1 | sed 's|/[^ ]*/tree/|/|g; s/ [0-9a-f]\{64\}:.*/ ../'
    depot: /release/program.xz isn't what release/RELEASE says, its SHA-256 is ..
    $ printf 'program none\n' > tree/release/RELEASE && tree/release/make_deb
    2> make_deb: this tree has no program in release/: name a built one, release/make_deb --program FILE
    [1]
    $ tree/release/make_deb --program none
    2> make_deb: there is no program none
    [1]
    $ tree/release/make_deb --program program
    2> make_deb: it isn't known which version the program has, or what it asks for
    [1]
    $ printf '#!/bin/sh\n# GLIBC_2.34\necho depot 987.6\n' > program && tree/release/make_deb --program program
    2> make_deb: CHANGELOG.md has no day for the version 987.6
    [1]
    $ tree/release/make_deb --programme program
    2> make_deb: the words are release/make_deb [--program FILE] [FOLDER]
    [1]
    $ ls
    depot
    examples
    program
    tree
    $ rm -r tree
