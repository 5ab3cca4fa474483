# check: whether a script has a fault, and at which token

`docs/LANGUAGE.md` says what a script can have, and `docs/INTERFACE.md` names the refusals. `explain.t` is about the same faults in words.

Scripts without a fault.

## an empty script
    $ : > script
    $ depot check script
    ok

## actions
    $ echo 'keep; discard; stop;' > script
    $ depot check script
    ok

## any case
    $ echo 'REQUIRE "fileinto"; IF SIZE :OVER 1K { KEEP; } Else { Discard; }' > script
    $ depot check script
    ok

## 31 nots
    $ echo 'if not not not not not not not not not not not not not not not not not not not not not not not not not not not not not not not true {}' > script
    $ depot check script
    ok

## examples
    $ depot check examples/discard-large.sieve
    ok
    $ depot check examples/pager.sieve
    ok
    $ depot check examples/intake.sieve
    ok
    $ depot check examples/lists.sieve
    ok
    $ depot check examples/documents.sieve
    ok
    $ depot check examples/blocklist.sieve
    ok
    $ depot check examples/tickets.sieve
    ok

Tokens and their order.

## open string
    $ printf '"abc' > script
    $ depot check script
    2> refused 11 Lexical at 0
    [1]

## number too large
    $ echo 'if size :over 18446744073709551616 { keep; }' > script
    $ depot check script
    2> refused 11 Lexical at 14
    [1]

## missing semicolon
    $ printf keep > script
    $ depot check script
    2> refused 13 Syntax at 1
    [1]

## 32 nots
    $ echo 'if not not not not not not not not not not not not not not not not not not not not not not not not not not not not not not not not true {}' > script
    $ depot check script
    2> refused 14 TooDeep at 33
    [1]

Names that there are not, and what has to be required.

## unknown command
    $ echo 'vacation;' > script
    $ depot check script
    2> refused 15 UnknownCommand at 0
    [1]

## unknown test
    $ echo 'if envelope "from" "x" { keep; }' > script
    $ depot check script
    2> refused 15 UnknownCommand at 1
    [1]

## unknown capability
    $ echo 'require "regex";' > script
    $ depot check script
    2> refused 17 UnknownCapability at 0
    [1]

## missing capability
    $ echo 'fileinto "x";' > script
    $ depot check script
    2> refused 16 MissingCapability at 0
    [1]

## set without variables
    $ echo 'require "fileinto"; set "a" "b";' > script
    $ depot check script
    2> refused 16 MissingCapability at 3
    [1]

## mime not required
    $ echo 'if header :mime "a" "b" {}' > script
    $ depot check script
    2> refused 16 MissingCapability at 1
    [1]

## loop not required
    $ printf 'foreverypart { keep; }' > script
    $ depot check script
    2> refused 16 MissingCapability at 0
    [1]

Arguments.

## tag after a list
    $ echo 'if header "subject" :is "x" {}' > script
    $ depot check script
    2> refused 18 BadArguments at 1
    [1]

## two ways to match
    $ echo 'if header :is :contains "subject" "x" {}' > script
    $ depot check script
    2> refused 18 BadArguments at 1
    [1]

## two modifiers of a row
    $ echo 'require ["variables", "fileinto"]; set :lower :upper "a" "b";' > script
    $ depot check script
    2> refused 18 BadArguments at 7
    [1]

## any child alone
    $ echo 'require "mime"; if exists :anychild "a" {}' > script
    $ depot check script
    2> refused 18 BadArguments at 4
    [1]

## reference above nine
    $ echo 'require ["variables", "fileinto"]; fileinto "${10}";' > script
    $ depot check script
    2> refused 18 BadArguments at 7
    [1]

## name of 33 octets
    $ echo 'require "variables"; set "aaaaaaaaaaaaaaaaaaaaaaaaaaaaaaaaa" "b";' > script
    $ depot check script
    2> refused 19 Limit at 3
    [1]

Places.

## late require
    $ echo 'keep; require "fileinto";' > script
    $ depot check script
    2> refused 18 BadArguments at 2
    [1]

## else alone
    $ echo 'if true { keep; } stop; else { discard; }' > script
    $ depot check script
    2> refused 18 BadArguments at 8
    [1]

## break outside a loop
    $ printf 'require "foreverypart"; break;' > script
    $ depot check script
    2> refused 18 BadArguments at 3
    [1]

## break of no loop
    $ printf 'require ["foreverypart", "vnd.depot"]; foreverypart :name "o" { foreverypart { break :name "p"; } store "s"; }' > script
    $ depot check script
    2> refused 18 BadArguments at 13
    [1]

## store outside a loop
    $ printf 'require "vnd.depot"; store "a";' > script
    $ depot check script
    2> refused 18 BadArguments at 3
    [1]

## fourth loop
    $ printf 'require "foreverypart"; foreverypart { foreverypart { foreverypart { foreverypart {} } } }' > script
    $ depot check script
    2> refused 19 Limit at 9
    [1]

Of two faults the first one is told.

## first in order
    $ echo 'keep "x"; vacation;' > script
    $ depot check script
    2> refused 18 BadArguments at 0
    [1]
