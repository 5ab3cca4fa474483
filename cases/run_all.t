# cases/run_all itself, in a small repository

## cases that are wrong are named in their order, and counted
    $ mkdir -p tree/cases tree/docs tree/examples && cp depot program
    $ sed 's/^PROCESSOR_SECONDS, IDLE_SECONDS = .*/PROCESSOR_SECONDS, IDLE_SECONDS = 1, 8/' "$TOP/cases/run_all" > tree/cases/run_all && chmod +x tree/cases/run_all
    $ for tour in README docs/GUIDE docs/GALLERY docs/BYTECODE; do printf 'A tour.\n\n    $ echo a > /tmp/b; cat /tmp/b\n    a\n' > tree/$tour.md; done
    $ cat > tree/cases/a.t <<'END'
    > ## slow and wrong
    >     $ sleep 2; echo b
    >     a
    > ## right
    >     $ [ -x depot ] && [ -d "$TMPDIR" ] && [ -s "$FILES/too-many-parts" ] && echo a; echo b >&2; exit 3
    >     a
    >     2> b
    >     [3]
    > ## a file that is left
    >     $ for n in 1 2; do touch file$n; done; ls file1
    >     file1
    > ## a status
    >     $ exit 1
    > ## passed over
    > Only if: false # it is so
    >     $ echo
    > ## idle
    >     $ echo begun; sleep 100 & sleep 100
    >     begun
    > ## busy
    >     $ while :; do :; done
    > ## long, and never idle
    >     $ for n in 1 2 3; do sleep 2; echo $n; done
    >     1
    >     2
    >     3
    > ## nothing
    > END
    $ tree/cases/run_all program 2> said
    --- cases/a.t: slow and wrong
    +++ what was printed
    @@ -1,2 +1,2 @@
         $ sleep 2; echo b
    -    a
    +    b
    cases/a.t: a file that is left: the file file2 is left, and not named
    --- cases/a.t: a status
    +++ what was printed
    @@ -1 +1,2 @@
         $ exit 1
    1> +    [1]
    passed over, since it is so: cases/a.t: passed over
    --- cases/a.t: idle
    +++ what was printed
    @@ -1,2 +1,4 @@
         $ echo begun; sleep 100 & sleep 100
         begun
    +    2> run_all: stopped, since it was idle for 8 seconds
    +    [137]
    --- cases/a.t: busy
    +++ what was printed
    @@ -1 +1,3 @@
         $ while :; do :; done
    +    2> run_all: stopped, since it took 1 seconds of processor time
    +    [137]
    cases/a.t: nothing: no command
    6 passed, 6 failed
    [1]
    $ tree/cases/run_all program right a.t 2> said | tail -n 1; tree/cases/run_all program right 2> said; tree/cases/run_all program wrong
    2 passed, 6 failed
    1 passed, 0 failed
    2> run_all: there is no file or case wrong
    [2]
    $ rm -r tree program
