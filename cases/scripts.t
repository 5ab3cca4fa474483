# What takes a script of its own

## two processes on one depot
    $ "$TOP/cases/two_processes" depot

## help, the manual page and the completions
    $ "$TOP/cases/help_and_manual" depot

## the start of the program, with stand-ins for it and for the toolchain
    $ "$TOP/cases/starts"
    31 tried, 0 wrong

## the edits and the code
    $ "$TOP/checks/edits_stand"

## the pages of promises, laws, edits and assumed contracts
    $ "$TOP/checks/pages"

## the C functions that the program links are those of the list
Only if: command -v nm # there is no nm
    $ { nm -D depot | grep ' U '; nm depot | grep ' T rattle_'; } | sed 's/.* //; s/@.*//' | LC_ALL=C sort > linked
    $ awk -F '\t' '$3 == "program" { sub(/.*::/, "", $1); print $1 }' "$TOP/checks/assumed.tsv" | LC_ALL=C sort | cmp - linked
    $ rm linked

## the lines of docs/generated/RINGS.md, docs/AUDIT.md and README.md, and the definitions
    $ "$TOP/checks/rings"

## a definition that is in the wrong module doesn't go unseen
    $ mkdir copy && cd "$TOP" && tar c README.md docs/AUDIT.md docs/generated/RINGS.md checks crates/*/specs crates/*/src | tar x -C "$OLDPWD/copy"
    $ copy/checks/rings
    $ printf 'abbrev pub stray : Bool\nstray = true\n' >> copy/crates/mime_tree/specs/Order.antt
    $ copy/checks/rings | sed -n 's/.*Order.antt:[0-9]*: //p'
    stray: no public contract reaches this, and specs/Lib.antt doesn't name the module as private
    $ sed -i '/^pub mod Readable$/d' copy/crates/mime_tree/specs/Lib.antt
    $ echo 'pub mod Readable' >> copy/crates/mime_tree/specs/Lib.antt
    $ copy/checks/rings | sed -n 's/.*Readable.antt:[0-9]*: //p'
    IsReadable: a public contract reaches this, and specs/Lib.antt names the module as private
    IsTree: a public contract reaches this, and specs/Lib.antt names the module as private
    only where specs/Lib.antt names a module as private does it begin with `-- Private: `
    $ rm -r copy

## the links, paths and contents of the documents
    $ "$TOP/checks/links"

## the pictures of the figures, and the tables that they are drawn from
    $ "$TOP/bench/pictures" --check

## refusals of memory, and the reasons of each
    $ "$TOP/cases/memory_refusals"
    74 places, each with its reason

## how often commands ask for memory
Only if: command -v cc # there is no C compiler
    $ "$TOP/cases/allocations" depot
    22 commands, 0 ask for another number of allocations

## deliver, behind a mail server
Only if: command -v flock # there is no flock
    $ "$TOP/contrib/test_deliver" depot > report || cat report

## allocations that are refused, a sample
Only if: command -v cc # there is no C compiler
    $ "$TOP/bench/refused_allocations" depot --sample > report || cat report
    $ grep -c ' 0 odd$' report
    1

## files that were cut, changed in a bit, or made by others
Only if: python3 -c 'import sqlite3' # there is no sqlite3 for python3
    $ "$TOP/cases/changed_files" depot
    cut at each of 18 pages: refused
    one bit changed: usual 36, refused 2, other 62
    other tables: refused
    a column more: usual

## forty commands, each a process of its own
    $ "$TOP/cases/forty_commands" depot
    47 commands over one file, 0 answered otherwise

## many commands beside a plain model
    $ "$TOP/cases/history" depot
    500 commands and two lists after each, 0 differ

## a batch answers as its commands do alone, and loses nothing where it is killed
    $ "$TOP/cases/batches" depot
    303 lines, 0 answered otherwise than alone; 20 batches killed, 0 left something else; 2 runs of refile killed, 0 left something else
