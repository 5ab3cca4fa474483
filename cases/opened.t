# Which files a command opens, each once, and which it makes

The files are pipes. One that is opened a second time, in another order than it is written, or though nobody writes to it would keep
its command waiting until `run_all` stops it.

## a script, then a message
    $ mkfifo s m; { printf 'if size :over 3 { discard; }' > s; printf abcd > m; } & depot eval s m; wait
    none
    charged 4 of 4
    $ { printf abcd > m; printf 'if size :over 3 { discard; }' > s; } & depot eval m s; echo "$?"; wait
    1
    2> refused 13 Syntax at 1

## nothing after a file that isn't there, and all before it
    $ mkfifo m; depot eval none m
    2> refused 46 Read
    [1]
    $ printf abcd > m & depot run m none; echo "$?"; wait
    1
    2> refused 46 Read

## a program, and nothing where its script is refused
    $ mkfifo s o; printf abcd > s & depot compile s o; echo "$?"; wait
    1
    2> refused 13 Syntax at 1
    $ rm o; printf 'if size :over 3 { discard; }' > s & depot compile s o; wait
    wrote 55 octets
    $ printf 'SVBC\2\0\0\0\1\0\0\0\0\0\4\0\0\0\0\0\0\0\3\17\0\0\0\0\0\0\0\13\0\0\0\0\0\0\3\24\0\0\0\0\0\0\0\1\0\0\0\0\0\0\0' | cmp - o

## on a depot, the script, the program or the message
    $ mkfifo s; printf 'if size :over 3 { discard; }' > s & depot script d ann s; wait
    stored
    $ printf 'if size :over 3 { discard; }' > s & depot code d ann s; echo "$?"; wait
    1
    2> refused 20 Spelling
    $ printf abcd > s & depot deliver d bob s; wait
    1 message "INBOX"
    $ depot deliver d Ann none
    2> refused 46 Read
    [1]
    $ depot list d ann
    none
    $ depot list d Ann
    2> refused 44 UserName
    [1]
    $ depot export d ann 1 raw
    2> refused 40 NoSuchEntry
    [1]
    $ depot remove d ann 4294967295
    2> refused 40 NoSuchEntry
    [1]
    $ depot migrate d
    migrated 0

## a user's program, and nothing where there is none
    $ printf 'if size :over 3 { discard; }' > s; depot script d ann s
    stored
    $ mkfifo o; depot program d bob o
    2> refused 40 NoSuchEntry
    [1]
    $ depot program d Bob o
    2> refused 44 UserName
    [1]
    $ depot program d ann d
    2> refused 45 Write
    [1]
    $ rm o; depot program d ann o
    wrote 55 octets
    $ printf 'SVBC\2\0\0\0\1\0\0\0\0\0\4\0\0\0\0\0\0\0\3\17\0\0\0\0\0\0\0\13\0\0\0\0\0\0\3\24\0\0\0\0\0\0\0\1\0\0\0\0\0\0\0' | cmp - o

The disk takes 54 octets of 55.

## a program of which the last octet can't be written
    $ printf 'if size :over 3 { discard; }' > s; depot script d ann s && echo before > o
    stored
    $ cat > limited << 'END'
    > import os, resource, signal, sys
    > signal.signal(signal.SIGXFSZ, signal.SIG_IGN)
    > resource.setrlimit(resource.RLIMIT_FSIZE, (int(sys.argv[1]),) * 2)
    > os.execvp("depot", ["depot", *sys.argv[2:]])
    > END
    $ python3 limited 54 program d ann o
    2> refused 45 Write
    [1]
    $ python3 limited 54 compile s o
    2> refused 45 Write
    [1]
    $ cat o; ls -A | grep -v -e -wal
    before
    d
    depot
    examples
    limited
    o
    s
    $ python3 limited 55 compile s o && python3 limited 55 program d ann o
    wrote 55 octets
    wrote 55 octets

## a word that isn't known, with a control character, and a file after it
    $ mkfifo s; depot "$(printf 'ch\7eck')" s
    2> error: unrecognized subcommand 'ch\07eck'
    2>
    2>   tip: a similar subcommand exists: 'check'
    2>
    2> Usage: depot [COMMAND]
    2>
    2> For more information, try '--help'.
    [2]
