# contrib/try, the page that shows what a filter does

## what it refuses, and what it goes through
    $ "$TOP/cases/try_strangers"
    ok secrets
    ok headers
    ok bodies
    ok questions
    ok connections
    ok many
    ok files
    ok expensive
    ok end

## the page in a browser
Only if: command -v chromium # there is no chromium
    $ "$TOP/cases/try_browser"
    ok error
    ok choose
    ok drop
    ok hover
    ok keyboard
    ok table
    ok cost
    ok hostile
    ok refusals
    ok sizes
    ok end

## it can't start
    $ "$TOP/contrib/try" none
    2> depot-try: there is no folder none
    [1]
    $ DEPOT=./none "$TOP/contrib/try"
    2> depot-try: there is no program depot: put it on the PATH, or name it by the variable DEPOT
    [1]
    $ "$TOP/contrib/try" --port 99999
    2> depot-try: bind(): port must be 0-65535.
    [1]
    $ "$TOP/contrib/try" --port x
    2> usage: depot-try [--port PORT] [FOLDER]
    2> depot-try: error: argument --port: invalid int value: 'x'
    [2]

## no browser
    $ mkdir bin && ln -s "$(command -v python3)" bin/python3 && PATH=$PWD/bin python3 "$TOP/cases/try_browser"
    2> try_browser: there is no chromium
    [2]
    $ rm -r bin
