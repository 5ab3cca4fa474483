# explain: the fault of a script in words, with its line

The refusal stands on standard error as `check` has it.

No fault.

## an empty script
    $ : > script
    $ depot explain script
    ok

## no fault
    $ cat > script << 'END'
    > require "fileinto";
    > fileinto "a";
    > END
    $ depot explain script
    ok

## examples
    $ depot explain examples/sort.sieve
    ok

## as long as may be
    $ printf '%65536s' '' > spaces
    $ depot explain spaces
    ok

Letters outside of ASCII in a test of the header, which mail writes encoded.

## a key outside of ASCII
    $ printf 'require "fileinto";\nif anyof (header :contains "Subject" ["bill", "Gr\303\274\303\237e"], header "From" "\303\274") {\n' > script
    $ printf '    fileinto "Bills";\n}\n' >> script
    $ depot explain script
    ok
    script:2:47: note: fields are compared without decoding, and mail usually encodes such letters, as in =?UTF-8?..?=: this rarely matches
      if anyof (header :contains "Subject" ["bill", "Grüße"], header "From" "ü") {
                                                    ^
    script:2:71: note: fields are compared without decoding, and mail usually encodes such letters, as in =?UTF-8?..?=: this rarely matches
      ...header :contains "Subject" ["bill", "Grüße"], header "From" "ü") {
                                                                     ^
    $ depot check script
    ok

## a name outside of ASCII of a parameter
    $ printf 'if header :mime :param "\303\274" "Content-Type" "x" { stop; }\n' > script
    $ { echo 'require "mime";'; cat script; } > with_mime
    $ depot explain with_mime
    ok
    with_mime:2:24: note: fields are compared without decoding, and mail usually encodes such letters, as in =?UTF-8?..?=: this rarely matches
      if header :mime :param "ü" "Content-Type" "x" { stop; }
                             ^

## letters outside of ASCII elsewhere
    $ printf 'require ["variables", "fileinto", "foreverypart", "vnd.depot"];\nset "a" "\303\274"; # \303\274\n' > script
    $ printf 'if allof (header "Subject" "${a}", string "${a}" "\303\274") { fileinto "\303\274"; }\n' >> script
    $ printf 'foreverypart { if partbody :contains "\303\274" { store "\303\274"; } }\n' >> script
    $ depot explain script
    ok

Notes on tests and commands that can't mean what they say, one of each test or command.

## names of fields with a colon or a blank
    $ cat > script << 'END'
    > if header :contains "Subject:" "x" { stop; }
    > if header :is ["From", "X Spam"] "x" { stop; }
    > if exists ["To", "Cc:"] { stop; }
    > END
    $ depot explain script
    ok
    script:1:21: note: no field name ends in a colon: remove the colon
      if header :contains "Subject:" "x" { stop; }
                          ^
    script:2:24: note: no field name contains a blank: remove the blank
      if header :is ["From", "X Spam"] "x" { stop; }
                             ^
    script:3:18: note: no field name ends in a colon: remove the colon
      if exists ["To", "Cc:"] { stop; }
                       ^
    $ echo 'if allof (header "Subject" ["x:", "a b"], exists ["To", "Cc"], header ["a"] "b:") { stop; }' > script
    $ depot explain script
    ok

## stars that match only themselves
    $ cat > script << 'END'
    > if header :contains "Subject" ["a", "*ticket*"] { stop; }
    > if header :is "Subject" "*y*" { stop; }
    > if header "From" ["a", "boss*"] { stop; }
    > END
    $ depot explain script
    ok
    script:1:37: note: `*` matches only itself here: remove it, or use `:matches` if it should match any text
      if header :contains "Subject" ["a", "*ticket*"] { stop; }
                                          ^
    script:2:25: note: `*` matches only itself here: use `:matches` if it should match any text
      if header :is "Subject" "*y*" { stop; }
                              ^
    script:3:24: note: `*` matches only itself here: use `:matches` if it should match any text
      if header "From" ["a", "boss*"] { stop; }
                             ^
    $ cat > script << 'END'
    > if header :contains ["Subject", "*x"] ["***SPAM***", "filename*", "*", "a*b", "really?"] { stop; }
    > if header :is "Subject" ["**", "", "*", "five**", "really?"] { stop; }
    > if header :matches "Subject" ["*ticket*"] { stop; }
    > END
    $ depot explain script
    ok

## matches without a wildcard
    $ cat > script << 'END'
    > require ["variables", "foreverypart", "vnd.depot"];
    > if header :matches ["From", "*"] ["boss", "chief"] { stop; }
    > if string :matches "${a}" "b" { stop; }
    > foreverypart { if partbody :matches "b" { stop; } }
    > END
    $ depot explain script
    ok
    script:2:35: note: this `:matches` has no `*` and no `?`, so it compares whole values like `:is`: write `:is`, or add a wildcard
      if header :matches ["From", "*"] ["boss", "chief"] { stop; }
                                        ^
    script:3:27: note: this `:matches` has no `*` and no `?`, so it compares whole values like `:is`: write `:is`, or add a wildcard
      if string :matches "${a}" "b" { stop; }
                                ^
    script:4:37: note: this `:matches` has no `*` and no `?`, so it compares whole values like `:is`: write `:is`, or add a wildcard
      foreverypart { if partbody :matches "b" { stop; } }
                                          ^
    $ cat > script << 'END'
    > require "variables"; set "a" "b";
    > if header :matches "From" ["boss", "*<boss>"] { stop; }
    > if header :matches "From" "bos?" { stop; }
    > if string :matches "a" "${a}" { stop; }
    > END
    $ depot explain script
    ok

## keys with a slash that are compared with a piece of a type
    $ cat > script << 'END'
    > require "mime";
    > if header :mime :type "Content-Type" "image/png" { stop; }
    > if header :mime :subtype :contains ["Content-Type", "X"] ["png", "/jpeg"] { stop; }
    > if header :type :mime :matches "Content-Type" "image/*" { stop; }
    > END
    $ depot explain script
    ok
    script:2:38: note: `:type` and `:subtype` give only one side of the `/` in a type such as image/png: use `:contenttype` for this key
      if header :mime :type "Content-Type" "image/png" { stop; }
                                           ^
    script:3:66: note: `:type` and `:subtype` give only one side of the `/` in a type such as image/png: use `:contenttype` for this key
      ...ader :mime :subtype :contains ["Content-Type", "X"] ["png", "/jpeg"] { stop; }
                                                                     ^
    script:4:47: note: `:type` and `:subtype` give only one side of the `/` in a type such as image/png: use `:contenttype` for this key
      if header :type :mime :matches "Content-Type" "image/*" { stop; }
                                                    ^
    $ cat > script << 'END'
    > require "mime";
    > if header :mime :type "Content-Type" "image" { stop; }
    > if header :mime :contenttype "Content-Type" "image/png" { stop; }
    > if header :mime :param "a/b" "Content-Type" "x/y" { stop; }
    > if header :mime :type ["a/b", "Content-Type"] text: # a/b
    > image
    > .
    > { stop; }
    > if header "X-Type" "image/png" { stop; }
    > END
    $ depot explain script
    ok

## keys without a slash that are compared with whole types
    $ cat > script << 'END'
    > require "mime";
    > if header :mime :contenttype "Content-Type" ["image/png", "pdf"] { stop; }
    > if header :contenttype :mime :is ["content-type"] "image" { stop; }
    > END
    $ depot explain script
    ok
    script:2:59: note: `:contenttype` gives a whole type such as image/png: add `/` and a subtype to this key, or use `:type`
      if header :mime :contenttype "Content-Type" ["image/png", "pdf"] { stop; }
                                                                ^
    script:3:51: note: `:contenttype` gives a whole type such as image/png: add `/` and a subtype to this key, or use `:type`
      if header :contenttype :mime :is ["content-type"] "image" { stop; }
                                                        ^
    $ cat > script << 'END'
    > require ["mime", "variables"];
    > if header :mime :contenttype :contains "Content-Type" "pdf" { stop; }
    > if header :mime :contenttype :matches "Content-Type" "image*" { stop; }
    > if header :mime :contenttype "Content-Disposition" "attachment" { stop; }
    > if header :mime :contenttype ["Content-Type", "Content-Disposition"] "attachment" { stop; }
    > if header :mime :contenttype "Content-Type" ["", "${0}", "image/png"] { stop; }
    > if header :mime :subtype "Content-Type" "png" { stop; }
    > END
    $ depot explain script
    ok

## digests that no part has
    $ cat > script << 'END'
    > require ["foreverypart", "vnd.depot"];
    > foreverypart {
    >     if partdigest ["0123456789abcdef0123456789abcdef0123456789abcdef0123456789abcdef", "0123"] { stop; }
    >     if partdigest "0123456789ABCDEF0123456789ABCDEF0123456789ABCDEF0123456789ABCDEF" { stop; }
    >     if partdigest "0123456789abcdef0123456789abcdef0123456789abcdef0123456789abcdef" { stop; }
    >     if partdigest "\0123456789abcdef0123456789abcdef0123456789abcdef0123456789abcdef" { stop; }
    > }
    > END
    $ depot explain script
    ok
    script:3:88: note: no part has this digest: write 64 hexadecimal digits, with lower-case letters
      ...789abcdef0123456789abcdef0123456789abcdef0123456789abcdef", "0123"] { stop; }
                                                                     ^
    script:4:19: note: no part has this digest: write 64 hexadecimal digits, with lower-case letters
          if partdigest "0123456789ABCDEF0123456789ABCDEF0123456789ABCDEF0123456789A...
                        ^

## commands that never run
    $ cat > script << 'END'
    > require "foreverypart";
    > foreverypart {
    >     break;
    >     keep;
    > }
    > if true { if exists "a" { stop; } } elsif true { keep; } else { discard; }
    > stop;
    > discard;
    > END
    $ depot explain script
    ok
    script:4:5: note: this comes after `break`, which leaves the loop: move it before the `break`
          keep;
          ^
    script:6:37: note: the test before this branch looks always true, which switches the branch off: change the test, or remove the branch
      if true { if exists "a" { stop; } } elsif true { keep; } else { discard; }
                                          ^
    script:6:58: note: the test before this branch looks always true, which switches the branch off: change the test, or remove the branch
      if true { if exists "a" { stop; } } elsif true { keep; } else { discard; }
                                                               ^
    script:8:1: note: this comes after `stop`, which ends the script: move it before the `stop`
      discard;
      ^
    $ cat > script << 'END'
    > require "foreverypart";
    > foreverypart { if exists "a" { break; } keep; }
    > if true { keep; } if exists "b" { stop; } else { discard; }
    > stop;
    > END
    $ depot explain script
    ok

## branches behind tests that are always true or false
    $ cat > script << 'END'
    > if false { keep; }
    > if not true { keep; } elsif allof (false, exists "a") { discard; }
    > if anyof (true, exists "a") { keep; } elsif exists "b" { discard; }
    > if exists "a" { keep; } elsif not false { discard; } else { stop; }
    > END
    $ depot explain script
    ok
    script:1:4: note: this test looks always false, which switches its block off: change the test, or remove the block
      if false { keep; }
         ^
    script:2:4: note: this test looks always false, which switches its block off: change the test, or remove the block
      if not true { keep; } elsif allof (false, exists "a") { discard...
         ^
    script:2:29: note: this test looks always false, which switches its block off: change the test, or remove the block
      if not true { keep; } elsif allof (false, exists "a") { discard; }
                                  ^
    script:3:39: note: the test before this branch looks always true, which switches the branch off: change the test, or remove the branch
      if anyof (true, exists "a") { keep; } elsif exists "b" { discard; }
                                            ^
    script:4:54: note: the test before this branch looks always true, which switches the branch off: change the test, or remove the branch
      if exists "a" { keep; } elsif not false { discard; } else { stop; }
                                                           ^
    $ cat > script << 'END'
    > if anyof (false, exists "a") { keep; } else { discard; }
    > if allof (true, exists "a") { keep; } elsif not exists "true" { discard; }
    > if not allof (false, exists "a") { keep; }
    > END
    $ depot explain script
    ok

## a command behind an if whose branches all end
    $ cat > script << 'END'
    > require "foreverypart";
    > foreverypart {
    >     if exists "a" { stop; } elsif exists "b" { if exists "c" { keep; } break; } else { keep; stop; }
    >     keep;
    > }
    > if anyof (true, exists "a") { stop; }
    > keep;
    > END
    $ depot explain script
    ok
    script:4:5: note: this comes after an `if` whose branches all have a `stop` or `break`: move it before the `if`, or remove it
          keep;
          ^
    script:7:1: note: this comes after an `if` whose branches all have a `stop` or `break`: move it before the `if`, or remove it
      keep;
      ^
    $ cat > script << 'END'
    > require "foreverypart";
    > if exists "a" { stop; } elsif exists "b" { stop; }
    > if exists "a" { if exists "b" { stop; } } else { stop; }
    > if exists "a" { keep; } else { stop; }
    > if exists "a" { foreverypart { break; } } else { stop; }
    > foreverypart { if exists "a" { stop; } else { break; } }
    > keep;
    > END
    $ depot explain script
    ok

## fields of parts without mime
    $ cat > script << 'END'
    > require ["foreverypart", "mime"];
    > foreverypart {
    >     if header :contains ["Subject", "content-type"] "pdf" { keep; }
    >     if exists "a" { foreverypart { stop; } }
    >     if not exists "Content-Disposition" { stop; }
    > }
    > END
    $ depot explain script
    ok
    script:3:37: note: without `:mime` this tests the field of the message, not of the current part: add `:mime`, or move the test out of the loop
          if header :contains ["Subject", "content-type"] "pdf" { keep; }
                                          ^
    script:5:19: note: without `:mime` this tests the field of the message, not of the current part: add `:mime`, or move the test out of the loop
          if not exists "Content-Disposition" { stop; }
                        ^
    $ cat > script << 'END'
    > require ["foreverypart", "mime"];
    > if header :contains "Content-Type" "pdf" { keep; }
    > foreverypart {
    >     if header :mime :contains "Content-Type" "pdf" { keep; }
    >     if header :contains ["Subject", "X-Content-Type"] "Content-Type" { keep; }
    > }
    > if exists "Content-Type" { keep; }
    > END
    $ depot explain script
    ok

## variables that nothing gives a value
    $ cat > script << 'END'
    > require ["variables", "fileinto"];
    > set "Ticket" "a";
    > if string "${tickets}" "" { fileinto "Tickets/${ticket}${Number}"; }
    > END
    $ depot explain script
    ok
    script:3:11: note: this string refers to a variable, but no `set` or `take` gives it a value
      if string "${tickets}" "" { fileinto "Tickets/${ticket}${Number}"; }
                ^
    script:3:38: note: this string refers to a variable, but no `set` or `take` gives it a value
      if string "${tickets}" "" { fileinto "Tickets/${ticket}${Number}"; }
                                           ^
    $ cat > script << 'END'
    > require ["variables", "foreverypart", "vnd.depot", "fileinto"];
    > fileinto "a${B}${ c}${d${e-f}$g{h}";
    > foreverypart { take "b"; }
    > set "\i" "${0}"; fileinto "${i}";
    > END
    $ depot explain script
    ok
    $ echo 'require "fileinto"; fileinto "${a}";' > script
    $ depot explain script
    ok

## variables that nothing reads
    $ cat > script << 'END'
    > require ["variables", "fileinto", "foreverypart", "vnd.depot"];
    > set "ticket" "a";
    > set "Number" "1"; set :upper "number" "${NUMBER}2";
    > if header :is "Subject" "b" { set "folder" "b"; } else { set "folder" "c"; }
    > foreverypart { take :first 9 "start"; }
    > fileinto "$ticket/${ ticket}/${ticket";
    > END
    $ depot explain script
    ok
    script:2:5: note: no other command or test reads this variable: remove this command, or check how references spell its name
      set "ticket" "a";
          ^
    script:3:5: note: no other command or test reads this variable: remove this command, or check how references spell its name
      set "Number" "1"; set :upper "number" "${NUMBER}2";
          ^
    script:4:35: note: no other command or test reads this variable: remove this command, or check how references spell its name
      if header :is "Subject" "b" { set "folder" "b"; } else { set "folder" "c"; }
                                        ^
    script:5:30: note: no other command or test reads this variable: remove this command, or check how references spell its name
      foreverypart { take :first 9 "start"; }
                                   ^
    $ cat > script << 'END'
    > require ["variables", "fileinto", "foreverypart", "vnd.depot"];
    > if header :is "${first}" ["x", "${Part}"] { fileinto "a${b}${_c}"; }
    > set "First" "Subject"; set :length "b" "${from}"; set "FROM" "c"; set "_C" "";
    > foreverypart { take "part"; set "own" "${own}+"; fileinto text:
    > [${own}]
    > .
    > ; }
    > END
    $ depot explain script
    ok
    $ echo 'require ["variables", "fileinto"]; set "a" "b"; fileinto "$\{a}";' > script
    $ depot explain script
    ok

## names of loops, in which variables aren't expanded
    $ cat > script << 'END'
    > require ["variables", "foreverypart"];
    > foreverypart :name "${x}${1}" { break :name "${x}${1}"; }
    > END
    $ depot explain script
    ok

## captures beyond the wildcards of each key
    $ cat > script << 'END'
    > require ["variables", "fileinto"];
    > if header :matches "Subject" ["[*] *", "?"] { fileinto "${2}${1}"; }
    > if header :matches "From" "*@a" { fileinto "${1}/${3}"; }
    > END
    $ depot explain script
    ok
    script:3:44: note: this string has a numbered reference, but no test with `:matches` has that many wildcards
      if header :matches "From" "*@a" { fileinto "${1}/${3}"; }
                                                 ^
    $ cat > script << 'END'
    > require ["variables", "fileinto"]; set "x" "*";
    > if header :matches "Subject" "${x}" { fileinto "${9}"; }
    > END
    $ depot explain script
    ok

## a keep and a fileinto into the same folder
    $ cat > script << 'END'
    > require "fileinto";
    > keep;
    > fileinto "INBOX";
    > if exists "a" { fileinto "INBOX"; keep; }
    > END
    $ depot explain script
    ok
    script:3:1: note: this files the message into INBOX a second time: remove this command or the one before it
      fileinto "INBOX";
      ^
    script:4:35: note: this files the message into INBOX a second time: remove this command or the one before it
      if exists "a" { fileinto "INBOX"; keep; }
                                        ^
    $ cat > script << 'END'
    > require "fileinto";
    > keep; fileinto "Inbox";
    > if exists "a" { fileinto "INBOX"; }
    > keep;
    > END
    $ depot explain script
    ok

## fields of the message among those of all parts
    $ cat > script << 'END'
    > require "mime";
    > if header :mime :anychild :contains ["X-Spam", "subject"] "yes" { stop; }
    > if exists :mime :anychild "List-Id" { stop; }
    > END
    $ depot explain script
    ok
    script:2:48: note: parts other than attached messages usually don't have this field: remove `:anychild` to test only the message
      if header :mime :anychild :contains ["X-Spam", "subject"] "yes" { stop; }
                                                     ^
    script:3:27: note: parts other than attached messages usually don't have this field: remove `:anychild` to test only the message
      if exists :mime :anychild "List-Id" { stop; }
                                ^
    $ cat > script << 'END'
    > require "mime";
    > if header :mime :contains "Subject" "yes" { stop; }
    > if header :mime :anychild :contains "Content-Type" ["To", "pdf"] { stop; }
    > END
    $ depot explain script
    ok

## a store for each part
    $ cat > script << 'END'
    > require ["foreverypart", "vnd.depot"];
    > foreverypart {
    >     if exists "a" { store "b"; }
    >     store "c";
    > }
    > END
    $ depot explain script
    ok
    script:4:5: note: this also stores each multipart, which contains its parts again: put it in an `if` that tests the type of the part
          store "c";
          ^
    $ cat > script << 'END'
    > require ["foreverypart", "vnd.depot", "mime"];
    > foreverypart { if header :mime :type "Content-Type" "image" { store "a"; } }
    > END
    $ depot explain script
    ok

## tests that are always true or false in a group
    $ cat > script << 'END'
    > if anyof (exists "a", true) { keep; } else { discard; }
    > if allof (exists ["a", "b"], not true, exists "c") { keep; }
    > END
    $ depot explain script
    ok
    script:1:39: note: the test before this branch looks always true, which switches the branch off: change the test, or remove the branch
      if anyof (exists "a", true) { keep; } else { discard; }
                                            ^
    script:2:4: note: this test looks always false, which switches its block off: change the test, or remove the block
      if allof (exists ["a", "b"], not true, exists "c") { keep; }
         ^
    $ cat > script << 'END'
    > if anyof (exists "a", allof (true, exists "b"), not anyof (true, false)) { keep; } else { stop; }
    > if allof (exists "a", exists "false") { keep; }
    > END
    $ depot explain script
    ok

## sizes that no message has
    $ printf 'if size :over 64M { discard; }\nif size :over 67108863 { discard; }\nif size :under 64M { keep; }\n' > script
    $ depot explain script
    ok
    script:1:15: note: no message is larger than 67108864 bytes, so this is never true: write a smaller number
      if size :over 64M { discard; }
                    ^

## captures that nothing gives a value
    $ cat > script << 'END'
    > require ["variables", "fileinto"];
    > if header :contains "Subject" "[desk]" { fileinto "Desk ${1}"; }
    > if header "Subject" ["${x}", "a${0}b", "${9}"] { set "x" "${2}"; }
    > END
    $ depot explain script
    ok
    script:2:51: note: this string has a numbered reference, but the script has no test with `:matches` to set it
      if header :contains "Subject" "[desk]" { fileinto "Desk ${1}"; }
                                                        ^
    script:3:40: note: this string has a numbered reference, but the script has no test with `:matches` to set it
      if header "Subject" ["${x}", "a${0}b", "${9}"] { set "x" "${2}"; }
                                             ^
    script:3:58: note: this string has a numbered reference, but the script has no test with `:matches` to set it
      if header "Subject" ["${x}", "a${0}b", "${9}"] { set "x" "${2}"; }
                                                               ^
    $ echo 'if header :matches "From" "*?*?*?*?*" { stop; }' >> script
    $ depot explain script
    ok
    $ echo 'require "fileinto"; fileinto "${1}";' > script
    $ depot explain script
    ok
    $ echo 'require "fileinto"; fileinto "variables"; fileinto "${1}";' > script
    $ depot explain script
    ok

## keys that are longer than any variable
    $ key=$(printf '%4096s' '' | tr ' ' x)
    > for test in '"${a}" "KEYx"' ':contains ["${A}", "${a}"] ["b", "KEYx"]' \
    >     '"${a}" "KEY"' ':matches "${a}" "KEY*"' '["b${a}", "${a}"] "KEYx"' '"${a}" "KEY${a}"' '"${a}" "KEY\x"'; do
    >     printf 'require "variables"; set "a" "b"; if string %s { stop; }' "$(printf '%s' "$test" | sed "s/KEY/$key/")" > script
    >     depot explain script | sed -n '1p; 2p'
    > done
    ok
    script:1:52: note: a variable holds at most 4096 bytes, so this key never matches: write a shorter one
    ok
    script:1:78: note: a variable holds at most 4096 bytes, so this key never matches: write a shorter one
    ok
    ok
    ok
    ok
    ok

## keys with upper-case letters for a variable without any
    $ cat > script << 'END'
    > require "variables";
    > set :lower "who" "A";
    > if header :matches "From" "*" { set :quotewildcard :lower "Who" "${1}"; }
    > if string :comparator "i;octet" :contains "${who}" ["boss", "the Boss"] { stop; }
    > if string :is :comparator "i;octet" ["${WHO}"] "X" { stop; }
    > END
    $ depot explain script
    ok
    script:4:61: note: this key has upper-case letters, and each `set` of the variable has `:lower`, so the key never matches: write it in lower case
      if string :comparator "i;octet" :contains "${who}" ["boss", "the Boss"] { stop; }
                                                                  ^
    script:5:48: note: this key has upper-case letters, and each `set` of the variable has `:lower`, so the key never matches: write it in lower case
      if string :is :comparator "i;octet" ["${WHO}"] "X" { stop; }
                                                     ^
    $ cat > script << 'END'
    > require "variables";
    > set :lower "a" "A"; set :lower "b" "B"; set "B" "B"; set :lower :upperfirst "c" "c";
    > if string :comparator "i;octet" "${a}" "boss" { stop; }
    > if string "${a}" "Boss" { stop; }
    > if string :comparator "i;ascii-casemap" "${a}" "Boss" { stop; }
    > if string :comparator "i;octet" :matches "${a}" "B*" { stop; }
    > if string :comparator "i;octet" ["${a}", "${b}"] "Boss" { stop; }
    > if string :comparator "i;octet" "${c}" "Boss" { stop; }
    > if string :comparator "i;octet" ["${a}", "the ${a}"] "Boss" { stop; }
    > if string :comparator "i;octet" "${a}" ["B${a}", "\B"] { stop; }
    > END
    $ depot explain script
    ok
    $ cat > script << 'END'
    > require ["variables", "foreverypart", "vnd.depot"];
    > set :lower "a" "b";
    > foreverypart { take "A"; }
    > if string :comparator "i;octet" "${a}" "Boss" { stop; }
    > END
    $ depot explain script
    ok

## more notes than are shown
    $ for line in $(seq 21); do echo 'if exists "a:" { stop; }'; done > script
    $ depot explain script | grep -c 'remove the colon'
    20
    $ depot explain script | tail -n 1
    script: note: only the first 20 notes are shown
    $ head -n 20 script > twenty
    $ depot explain twenty | tail -n 2
      if exists "a:" { stop; }
                ^

Tokens.

## byte order mark
    $ printf '\357\273\277keep;' > script
    $ depot explain script
    script:1:1: error: this is a byte order mark: save the script as UTF-8 without one
      \ef\bb\bfkeep;
      ^
    2> refused 11 Lexical at 0
    [1]

## typographic quotes
    $ printf 'require \342\200\234fileinto\342\200\235;' > script
    $ depot explain script
    script:1:9: error: this is a typographic quote: put strings in straight double quotes, "like this"
      require “fileinto”;
              ^
    2> refused 11 Lexical at 8
    [1]

## single quotes
    $ printf "require 'fileinto';" > script
    $ depot explain script
    script:1:9: error: this is a single quote: put strings in double quotes, "like this"
      require 'fileinto';
              ^
    2> refused 11 Lexical at 8
    [1]

## slashes
    $ printf '// bills\nkeep;\n' > script
    $ depot explain script
    script:1:1: error: this begins no comment: write `#` before it, or put it between `/*` and `*/`
      // bills
      ^
    2> refused 11 Lexical at 0
    [1]

## no token
    $ printf 'keep; \303\251;' > script
    $ depot explain script
    script:1:7: error: `é` isn't allowed outside of strings and comments
      keep; é;
            ^
    2> refused 11 Lexical at 6
    [1]

## operators of other languages
    $ for test in 'true && true' 'true || true' 'size > 5K' 'size <= 5K' 'header "a" == "b"' 'header "a" = "b"' '!exists "a"'; do
    >     echo "if $test { keep; }" > script; depot explain script 2> refused | sed -n 1p
    > done
    script:1:9: error: Sieve has no `&&`: write `allof (.., ..)`, which is true if all of its tests are
    script:1:9: error: Sieve has no `||`: write `anyof (.., ..)`, which is true if one of its tests is
    script:1:9: error: Sieve has no `>`: write `:over` before the number, as in `size :over 100K`
    script:1:9: error: Sieve has no `<=`: write `:under` before the number, as in `size :under 100K`
    script:1:15: error: Sieve has no `==`: write `:is` before the strings, as in `header :is "Subject" "text"`
    script:1:15: error: Sieve has no `=`: write `:is` before the strings, as in `header :is "Subject" "text"`
    script:1:4: error: Sieve has no `!`: write `not` before the test, as in `not exists "Subject"`

## colon alone
    $ printf 'if header : is "a" "b" { keep; }' > script
    $ depot explain script
    script:1:11: error: this colon has no tag name directly after it
      if header : is "a" "b" { keep; }
                ^
    2> refused 11 Lexical at 10
    [1]

## number too large
    $ printf 'if size :over 99999999999G { discard; }' > script
    $ depot explain script
    script:1:15: error: this number is too large: the largest is 18446744073709551615
      if size :over 99999999999G { discard; }
                    ^
    2> refused 11 Lexical at 14
    [1]

## open comment
    $ echo 'keep; /* and so on' > script
    $ depot explain script
    script:1:7: error: this comment is never closed: add `*/` at its end
      keep; /* and so on
            ^
    2> refused 11 Lexical at 6
    [1]

## open lines
    $ cat > script << 'END'
    > require "fileinto";
    > fileinto text:
    > Bills
    > END
    $ depot explain script
    script:2:10: error: this multi-line string is never closed: end it with a line that has only a dot, and a line break after it
      fileinto text:
               ^
    2> refused 11 Lexical at 29
    [1]

## open lines, whose dot has no line break
    $ printf 'require "fileinto";\nfileinto text:\nBills\n.' > script
    $ depot explain script
    script:2:10: error: this multi-line string is never closed: end it with a line that has only a dot, and a line break after it
      fileinto text:
               ^
    2> refused 11 Lexical at 29
    [1]

## open string
    $ cat > script << 'END'
    > require "fileinto";
    > if true { fileinto "Bills; }
    > END
    $ depot explain script
    script:2:20: error: a string is never closed: this quote, or one before it, has no partner
      if true { fileinto "Bills; }
                         ^
    2> refused 11 Lexical at 39
    [1]

## string closed later
    $ cat > script << 'END'
    > require "fileinto";
    > if true { fileinto "Bills; }
    > fileinto "Other";
    > END
    $ depot explain script
    script:3:16: error: a string is never closed: this quote, or one before it, has no partner
      fileinto "Other";
                     ^
    2> refused 11 Lexical at 64
    [1]

The order of tokens.

## brace too many
    $ printf 'keep; }' > script
    $ depot explain script
    script:1:7: error: `}` isn't allowed here: is a semicolon missing before it, or its opening brace?
      keep; }
            ^
    2> refused 13 Syntax at 2
    [1]

## comma in the way
    $ printf 'if true, false { keep; }' > script
    $ depot explain script
    script:1:8: error: `,` isn't allowed here: put a list of strings in square brackets, and tests in round ones after `allof` or `anyof`
      if true, false { keep; }
             ^
    2> refused 13 Syntax at 2
    [1]

## string in the way
    $ printf 'if header :is "a" "b" "c" , "d" { keep; }' > script
    $ depot explain script
    script:1:27: error: `,` isn't allowed here: put a list of strings in square brackets, and tests in round ones after `allof` or `anyof`
      if header :is "a" "b" "c" , "d" { keep; }
                                ^
    2> refused 13 Syntax at 6
    [1]

## string that reads as the end of its sentence
    $ printf %s 'keep; "a`b\\"; stop;' > script
    $ depot explain script
    script:1:7: error: `"a\60b\5c\5c"` isn't allowed here: is a comma missing before it, or the name of its command or test?
      keep; "a`b\\"; stop;
            ^
    2> refused 13 Syntax at 2
    [1]

## end of script
    $ cat > script << 'END'
    > if true {
    >     keep;
    > END
    $ depot explain script
    script:3:1: error: the script ends before its last command is complete
    1>   
      ^
    script:1:9: note: this brace is never closed
      if true {
              ^
    2> refused 13 Syntax at 5
    [1]

## inner brace never closed
    $ printf 'if true {\n    keep;\n}\nif true {\n    if false {\n        discard;\n    }\n' > script
    $ depot explain script
    script:8:1: error: the script ends before its last command is complete
    1>   
      ^
    script:4:9: note: this brace is never closed
      if true {
              ^
    2> refused 13 Syntax at 15
    [1]

## end within a line
    $ printf keep > script
    $ depot explain script
    script:1:5: error: the script ends before its last command is complete
      keep
          ^
    2> refused 13 Syntax at 1
    [1]

## too deep
    $ echo 'if not not not not not not not not not not not not not not not not not not not not not not not not not not not not not not not not true {}' > script
    $ depot explain script
    script:1:132: error: braces and tests are nested more than 32 levels deep here
      ...not not not not not not not not not not not not not not not true {}
                                                                     ^
    2> refused 14 TooDeep at 33
    [1]

Names that there are not.

## unknown command
    $ printf 'keep; hold;' > script
    $ depot explain script
    script:1:7: error: unknown command `hold`
      keep; hold;
            ^
    2> refused 15 UnknownCommand at 2
    [1]

## did you mean
    $ cat > script << 'END'
    > if true {
    >     keep;
    > } elseif false {
    >     discard;
    > }
    > END
    $ depot explain script
    script:3:3: error: unknown command `elseif`, did you mean `elsif`?
      } elseif false {
        ^
    2> refused 15 UnknownCommand at 6
    [1]

## unknown test
    $ printf 'if flagged "x" { keep; }' > script
    $ depot explain script
    script:1:4: error: unknown test `flagged`
      if flagged "x" { keep; }
         ^
    2> refused 15 UnknownCommand at 1
    [1]

## unknown test meant
    $ cat > script << 'END'
    > if anyof (true, subject :is "bill") {
    >     discard;
    > }
    > END
    $ depot explain script
    script:1:17: error: unknown test `subject`, did you mean `header`?
      if anyof (true, subject :is "bill") {
                      ^
    2> refused 15 UnknownCommand at 5
    [1]

## command for a test
    $ printf 'if not keep { discard; }' > script
    $ depot explain script
    script:1:8: error: `keep` is a command, but a test is needed here
      if not keep { discard; }
             ^
    2> refused 15 UnknownCommand at 2
    [1]

## test for a command
    $ cat > script << 'END'
    > require "fileinto";
    > header :contains "Subject" "bill" {
    >     fileinto "Bills";
    > }
    > END
    $ depot explain script
    script:2:1: error: `header` is a test: is an `if` missing before it?
      header :contains "Subject" "bill" {
      ^
    2> refused 15 UnknownCommand at 3
    [1]

## unknown capability
    $ cat > script << 'END'
    > require ["fileinto",
    >   "foldering"];
    > END
    $ depot explain script
    script:2:3: error: unknown capability "foldering": depot has "fileinto", "variables", "mime", "foreverypart", "vnd.depot", "comparator-i;octet" and "comparator-i;ascii-casemap"
        "foldering"];
        ^
    2> refused 17 UnknownCapability at 0
    [1]

## all that a require names and depot lacks, each once
    $ cat > script << 'END'
    > require ["fileinto", "copy",
    >   "imap4flags", "copy"];
    > fileinto :copy "Bills";
    > END
    $ depot explain script
    script:1:22: error: depot has no "copy": a `keep` and a `fileinto` together file a message twice
      require ["fileinto", "copy",
                           ^
    script:2:3: error: depot has no "imap4flags": its entries have no flags, file into a folder instead
        "imap4flags", "copy"];
        ^
    script:3:1: error: depot has no `:copy`: a `keep` and a `fileinto` together file a message twice
      fileinto :copy "Bills";
      ^
    2> refused 17 UnknownCapability at 0
    [1]

## capability in another case
    $ printf 'require "FileInto";' > script
    $ depot explain script
    script:1:9: error: unknown capability "FileInto", did you mean "fileinto"?
      require "FileInto";
              ^
    2> refused 17 UnknownCapability at 0
    [1]

## capability one letter off
    $ printf 'require ["mime", "variable"];' > script
    $ depot explain script
    script:1:18: error: unknown capability "variable", did you mean "variables"?
      require ["mime", "variable"];
                       ^
    2> refused 17 UnknownCapability at 0
    [1]

## capability with swapped letters
    $ printf 'require "vnd.deopt";' > script
    $ depot explain script
    script:1:9: error: unknown capability "vnd.deopt", did you mean "vnd.depot"?
      require "vnd.deopt";
              ^
    2> refused 17 UnknownCapability at 0
    [1]

## capability that is written with a backslash
    $ printf %s 'require "fileinto"; require "fo\o";' > script
    $ depot explain script
    script:1:29: error: unknown capability "foo": depot has "fileinto", "variables", "mime", "foreverypart", "vnd.depot", "comparator-i;octet" and "comparator-i;ascii-casemap"
      require "fileinto"; require "fo\o";
                                  ^
    2> refused 17 UnknownCapability at 3
    [1]

## capability that another command has as its folder
    $ printf %s 'require "fo\o" { fileinto "foo"; }' > script
    $ depot explain script
    script:1:9: error: unknown capability "foo": depot has "fileinto", "variables", "mime", "foreverypart", "vnd.depot", "comparator-i;octet" and "comparator-i;ascii-casemap"
      require "fo\o" { fileinto "foo"; }
              ^
    script:1:18: error: `fileinto` needs `require "fileinto"` before it
      require "fo\o" { fileinto "foo"; }
                       ^
    2> refused 17 UnknownCapability at 0
    [1]

## capability beside one that is written with a backslash
    $ printf %s 'require ["file\\into", "file\into"];' > script
    $ depot explain script
    script:1:10: error: unknown capability "file\5cinto", did you mean "fileinto"?
      require ["file\\into", "file\into"];
               ^
    2> refused 17 UnknownCapability at 0
    [1]

## capability in lines of its own
    $ cat > script << 'END'
    > require ["fileinto", text:
    > fileinto
    > .
    > ];
    > END
    $ depot explain script
    script:1:22: error: unknown capability "fileinto\0a", did you mean "fileinto"?
      require ["fileinto", text:
                           ^
    2> refused 17 UnknownCapability at 0
    [1]

## capability that reads as the end of its sentence
    $ printf %s 'require "x\", did you mean \"fileinto";' > script
    $ depot explain script
    script:1:9: error: unknown capability "x\22, did you mean \22fileinto": depot has "fileinto", "variables", "mime", "foreverypart", "vnd.depot", "comparator-i;octet" and "comparator-i;ascii-casemap"
      require "x\", did you mean \"fileinto";
              ^
    2> refused 17 UnknownCapability at 0
    [1]

## command one letter off
    $ printf 'require "fileinto"; filinto "Bills";' > script
    $ depot explain script
    script:1:21: error: unknown command `filinto`, did you mean `fileinto`?
      require "fileinto"; filinto "Bills";
                          ^
    2> refused 15 UnknownCommand at 3
    [1]

## one letter off two commands
    $ printf 'stor "x";' > script
    $ depot explain script
    script:1:1: error: unknown command `stor`, did you mean `stop` or `store`?
      stor "x";
      ^
    2> refused 15 UnknownCommand at 0
    [1]

## tag one letter off
    $ printf 'if header :contain "Subject" "bill" { discard; }' > script
    $ depot explain script
    script:1:4: error: unknown tag `:contain`, did you mean `:contains`?
      if header :contain "Subject" "bill" { discard; }
         ^
    2> refused 18 BadArguments at 1
    [1]

## unknown tag
    $ printf 'if header :like "Subject" "bill" { discard; }' > script
    $ depot explain script
    script:1:4: error: unknown tag `:like`
      if header :like "Subject" "bill" { discard; }
         ^
    2> refused 18 BadArguments at 1
    [1]

Commands, tests and capabilities that other systems have.

## the names that docs/GALLERY.md lists
    $ sed -n '/^const LACKING/,/^];/p' "$TOP/crates/sieve_explain/src/hints.rt" | grep -o '"[a-z0-9;-]*"' | tr -d '"' | sort > told
    $ sed -n '/^## Coming from another Sieve/,/^## [^C]/s/^| \(`[^|]*\) |.*/\1/p' "$TOP/docs/GALLERY.md" | tr -d '` ' | tr , '\n' | sort > listed
    $ test -s listed || echo 'docs/GALLERY.md has no table under "Coming from another Sieve"'
    $ diff told listed

## each of them is explained
    $ sed -n '/^const LACKING/,/^];/p' "$TOP/crates/sieve_explain/src/hints.rt" | grep -o '"[a-z0-9;-]*"' | tr -d '"' > told
    $ while read -r name; do
    >     printf 'require "%s";' "$name" > script
    >     depot explain script 2> refused | grep -c "^script:1:9: error: depot has no \"$name\": "
    > done < told | sort -u
    1

## no capabilities
    $ for name in vacation enotify reject ereject imap4flags editheader include copy subaddress index envelope body date relational regex mailbox duplicate ihave encoded-character
    > do
    >     printf 'require "%s";' $name > script
    >     depot explain script 2> refused | sed -n 1p
    >     grep -v '^refused 17 UnknownCapability at 0$' refused
    > done; true
    script:1:9: error: depot has no "vacation": it sends no mail, the mail server can do that
    script:1:9: error: depot has no "enotify": it sends no mail, the mail server can do that
    script:1:9: error: depot has no "reject": it sends no mail, the mail server can do that
    script:1:9: error: depot has no "ereject": it sends no mail, the mail server can do that
    script:1:9: error: depot has no "imap4flags": its entries have no flags, file into a folder instead
    script:1:9: error: depot has no "editheader": it doesn't change messages
    script:1:9: error: depot has no "include": a script is a single file, put all commands into it
    script:1:9: error: depot has no "copy": a `keep` and a `fileinto` together file a message twice
    script:1:9: error: depot has no "subaddress": `header` tests the whole value of a field, as in `header :matches "From" ["a@b", "*<a@b>*"]`
    script:1:9: error: depot has no "index": `header` tests all fields of a name
    script:1:9: error: depot has no "envelope": it sees only the message, `header` can test "Delivered-To" if the mail server adds it
    script:1:9: error: depot has no "body": `partbody` tests the content of a part, inside a `foreverypart`
    script:1:9: error: depot has no "date": it doesn't compare times
    script:1:9: error: depot has no "relational": only `size` and `partsize` compare numbers
    script:1:9: error: depot has no "regex": use the wildcards of `:matches`
    script:1:9: error: depot has no "mailbox": a folder exists once something is filed into it
    script:1:9: error: depot has no "duplicate": a script doesn't see earlier messages
    script:1:9: error: depot has no "ihave": every capability that a script requires has to exist
    script:1:9: error: depot has no "encoded-character": write the character itself, strings can contain any

## no addflag
    $ printf %s 'addflag "\\Seen";' > script
    $ depot explain script
    script:1:1: error: depot has no `addflag`: its entries have no flags, file into a folder instead
      addflag "\\Seen";
      ^
    2> refused 15 UnknownCommand at 0
    [1]

## no addheader
    $ printf 'AddHeader "X-Seen" "yes"; keep;' > script
    $ depot explain script
    script:1:1: error: depot has no `AddHeader`: it doesn't change messages
      AddHeader "X-Seen" "yes"; keep;
      ^
    2> refused 15 UnknownCommand at 0
    [1]

## no address
    $ cat > script << 'END'
    > if anyof (true, address :is "From" "a@example.org") {
    >     discard;
    > }
    > END
    $ depot explain script
    script:1:17: error: depot has no `address`: `header` tests the whole value of a field, as in `header :matches "From" ["a@b", "*<a@b>*"]`
      if anyof (true, address :is "From" "a@example.org") {
                      ^
    2> refused 15 UnknownCommand at 5
    [1]

## no body
    $ printf 'if body :contains "bill" { discard; }' > script
    $ depot explain script
    script:1:4: error: depot has no `body`: `partbody` tests the content of a part, inside a `foreverypart`
      if body :contains "bill" { discard; }
         ^
    2> refused 15 UnknownCommand at 1
    [1]

## no date
    $ printf 'if currentdate :is "weekday" "0" { discard; }' > script
    $ depot explain script
    script:1:4: error: depot has no `currentdate`: it doesn't compare times
      if currentdate :is "weekday" "0" { discard; }
         ^
    2> refused 15 UnknownCommand at 1
    [1]

## no envelope
    $ printf 'if envelope :is "from" "a@example.org" { discard; }' > script
    $ depot explain script
    script:1:4: error: depot has no `envelope`: it sees only the message, `header` can test "Delivered-To" if the mail server adds it
      if envelope :is "from" "a@example.org" { discard; }
         ^
    2> refused 15 UnknownCommand at 1
    [1]

## no hasflag
    $ printf 'if hasflag "x" { keep; }' > script
    $ depot explain script
    script:1:4: error: depot has no `hasflag`: its entries have no flags, file into a folder instead
      if hasflag "x" { keep; }
         ^
    2> refused 15 UnknownCommand at 1
    [1]

## no extracttext
    $ printf 'extracttext :first 100 "text";' > script
    $ depot explain script
    script:1:1: error: depot has no `extracttext`: `take` sets a variable to the content of a part, inside a `foreverypart`
      extracttext :first 100 "text";
      ^
    2> refused 15 UnknownCommand at 0
    [1]

## no include
    $ printf 'include "common";' > script
    $ depot explain script
    script:1:1: error: depot has no `include`: a script is a single file, put all commands into it
      include "common";
      ^
    2> refused 15 UnknownCommand at 0
    [1]

## no mailboxexists
    $ printf 'if mailboxexists "Bills" { keep; }' > script
    $ depot explain script
    script:1:4: error: depot has no `mailboxexists`: a folder exists once something is filed into it
      if mailboxexists "Bills" { keep; }
         ^
    2> refused 15 UnknownCommand at 1
    [1]

## no spamtest
    $ printf 'if spamtest "10" { discard; }' > script
    $ depot explain script
    script:1:4: error: depot has no `spamtest`: `header` can test the field that a scanner adds
      if spamtest "10" { discard; }
         ^
    2> refused 15 UnknownCommand at 1
    [1]

## no vacation
    $ printf 'keep; vacation;' > script
    $ depot explain script
    script:1:7: error: depot has no `vacation`: it sends no mail, the mail server can do that
      keep; vacation;
            ^
    2> refused 15 UnknownCommand at 2
    [1]

What has to be required.

## missing capability
    $ cat > script << 'END'
    > # bills
    > fileinto "Bills";
    > END
    $ depot explain script
    script:2:1: error: `fileinto` needs `require "fileinto"` before it
      fileinto "Bills";
      ^
    2> refused 16 MissingCapability at 0
    [1]

## capability of a tag
    $ echo 'if header :mime :anychild :type "Content-Type" "image" { discard; }' > script
    $ depot explain script
    script:1:4: error: `header` needs `require "mime"` before it
      if header :mime :anychild :type "Content-Type" "image" { discar...
         ^
    2> refused 16 MissingCapability at 1
    [1]

## two capabilities of one command
    $ printf 'require "foreverypart"; foreverypart { take "a"; }' > script
    $ depot explain script
    script:1:40: error: `take` needs `require "variables"` before it
      require "foreverypart"; foreverypart { take "a"; }
                                             ^
    script:1:40: error: `take` needs `require "vnd.depot"` before it
      require "foreverypart"; foreverypart { take "a"; }
                                             ^
    2> refused 16 MissingCapability at 5
    [1]

## two capabilities of one command, one of which was reported
    $ cat > script << 'END'
    > require "foreverypart";
    > set "a" "b";
    > foreverypart {
    >     take "a";
    >     store "a";
    > }
    > END
    $ depot explain script
    script:2:1: error: `set` needs `require "variables"` before it
      set "a" "b";
      ^
    script:4:5: error: `take` needs `require "vnd.depot"` before it
          take "a";
          ^
    2> refused 16 MissingCapability at 3
    [1]

## late require
    $ printf 'keep; require "fileinto";' > script
    $ depot explain script
    script:1:7: error: `require` is allowed only before all other commands, outside of blocks
      keep; require "fileinto";
            ^
    2> refused 18 BadArguments at 2
    [1]

Semicolons, braces and tests.

## missing semicolon
    $ cat > script << 'END'
    > keep
    > discard;
    > END
    $ depot explain script
    script:1:1: error: `keep` takes no test: is a semicolon missing at its end?
      keep
      ^
    2> refused 18 BadArguments at 0
    [1]

## require without its semicolon before an if
    $ printf 'require "fileinto"\nif header "subject" "x" { fileinto "a"; }\nfileinto "b";\n' > script
    $ depot explain script
    script:1:1: error: `require` takes no test: is a semicolon missing at its end?
      require "fileinto"
      ^
    2> refused 18 BadArguments at 0
    [1]

## two of them
    $ printf 'require "fileinto"\nrequire "variables"\nif true { set "a" "b"; fileinto "${a}"; }\n' > script
    $ depot explain script
    script:1:1: error: `require` takes no test: is a semicolon missing at its end?
      require "fileinto"
      ^
    2> refused 18 BadArguments at 0
    [1]

## require without its semicolon before a loop
    $ printf 'require ["foreverypart", "vnd.depot"]\nforeverypart { store "a"; }\nstore "b";\n' > script
    $ depot explain script
    script:1:1: error: `require` takes no test: is a semicolon missing at its end?
      require ["foreverypart", "vnd.depot"]
      ^
    script:3:1: error: `store` is allowed only inside a `foreverypart`
      store "b";
      ^
    2> refused 18 BadArguments at 0
    [1]

## missing semicolon before an if with an else
    $ cat > script << 'END'
    > keep
    > if true {
    >     stop;
    > } elsif false {
    >     stop;
    > } else {
    >     fileinto "a";
    > }
    > else { stop; }
    > END
    $ depot explain script
    script:1:1: error: `keep` takes no test: is a semicolon missing at its end?
      keep
      ^
    script:7:5: error: `fileinto` needs `require "fileinto"` before it
          fileinto "a";
          ^
    script:9:1: error: `else` is allowed only directly after the block of an `if` or `elsif`
      else { stop; }
      ^
    2> refused 18 BadArguments at 0
    [1]

## block too many
    $ printf 'keep { discard; }' > script
    $ depot explain script
    script:1:1: error: `keep` has to end with a semicolon
      keep { discard; }
      ^
    2> refused 18 BadArguments at 0
    [1]

## missing block
    $ printf 'if true;' > script
    $ depot explain script
    script:1:1: error: `if` needs a block in braces
      if true;
      ^
    2> refused 18 BadArguments at 0
    [1]

## missing test
    $ printf 'if { keep; }' > script
    $ depot explain script
    script:1:1: error: `if` needs one test after it, without brackets around it
      if { keep; }
      ^
    2> refused 18 BadArguments at 0
    [1]

## brackets around a test
    $ printf 'if (header :is "Subject" "a") { keep; }' > script
    $ depot explain script
    script:1:1: error: `if` needs one test after it, without brackets around it
      if (header :is "Subject" "a") { keep; }
      ^
    2> refused 18 BadArguments at 0
    [1]

## command with a test
    $ printf 'keep true;' > script
    $ depot explain script
    script:1:1: error: `keep` takes no test: is a semicolon missing at its end?
      keep true;
      ^
    2> refused 18 BadArguments at 0
    [1]

## loop with a test
    $ printf 'require "foreverypart"; foreverypart discard;' > script
    $ depot explain script
    script:1:25: error: `foreverypart` takes no test: is its opening brace missing?
      require "foreverypart"; foreverypart discard;
                              ^
    2> refused 18 BadArguments at 3
    [1]

## tests without brackets
    $ printf 'if allof true { keep; }' > script
    $ depot explain script
    script:1:4: error: `allof` takes tests in round brackets, with commas between them
      if allof true { keep; }
         ^
    2> refused 18 BadArguments at 1
    [1]

## tests without comma
    $ printf 'if header :is "Subject" "a" and header :is "From" "b" { keep; }' > script
    $ depot explain script
    script:1:4: error: `header` takes no test: is a comma or a brace missing after it, or `allof` or `anyof` before it?
      if header :is "Subject" "a" and header :is "From" "b" { keep; }
         ^
    2> refused 18 BadArguments at 1
    [1]

## else if
    $ cat > script << 'END'
    > if true {
    >     keep;
    > } else if false {
    >     discard;
    > }
    > END
    $ depot explain script
    script:3:3: error: `else` takes no test: did you mean `elsif`, or is its opening brace missing?
      } else if false {
        ^
    2> refused 18 BadArguments at 6
    [1]

## lone else
    $ printf 'keep; else { discard; }' > script
    $ depot explain script
    script:1:7: error: `else` is allowed only directly after the block of an `if` or `elsif`
      keep; else { discard; }
            ^
    2> refused 18 BadArguments at 2
    [1]

Arguments.

## too few arguments
    $ printf 'if header :is "Subject" { keep; }' > script
    $ depot explain script
    script:1:4: error: `header` has too few arguments: it takes two, each a string or a list of strings
      if header :is "Subject" { keep; }
         ^
    2> refused 18 BadArguments at 1
    [1]

## words in the place of strings
    $ printf 'if header :contains Subject "x" { stop; }' > script
    $ depot explain script
    script:1:21: error: `Subject` should be a string: put it in quotation marks, "like this"
      if header :contains Subject "x" { stop; }
                          ^
    2> refused 18 BadArguments at 1
    [1]
    $ for script in 'if exists Subject { stop; }' 'require fileinto;' 'require ["variables", fileinto];' 'require [fileinto];' 'require "variables"; set n "v";' 'require "variables"; set "n" v;' 'require "fileinto"; fileinto Spam;'; do
    >     echo "$script" > script; depot explain script 2> refused | sed -n 1p
    > done
    script:1:11: error: `Subject` should be a string: put it in quotation marks, "like this"
    script:1:9: error: `fileinto` should be a string: put it in quotation marks, "like this"
    script:1:23: error: `fileinto` should be a string: put it in quotation marks, "like this"
    script:1:10: error: `fileinto` should be a string: put it in quotation marks, "like this"
    script:1:26: error: `n` should be a string: put it in quotation marks, "like this"
    script:1:30: error: `v` should be a string: put it in quotation marks, "like this"
    script:1:30: error: `Spam` should be a string: put it in quotation marks, "like this"

## words behind too few arguments that begin a command or test
    $ for script in 'require "fileinto"; fileinto keep;' 'if anyof (header :is "a", true) { stop; }' 'if header contains "a" "b" { stop; }' 'if size :over big { stop; }'; do
    >     echo "$script" > script; depot explain script 2> refused | sed -n 1p
    > done
    script:1:21: error: `fileinto` has too few arguments: it takes one string without brackets
    script:1:11: error: `header` has too few arguments: it takes two, each a string or a list of strings
    script:1:4: error: `contains` is a tag: is a colon missing before it?
    script:1:4: error: `size` has too few arguments: it takes one number

## too many arguments
    $ printf 'require "fileinto"; fileinto "a" "b";' > script
    $ depot explain script
    script:1:21: error: `fileinto` has too many arguments: it takes one string without brackets
      require "fileinto"; fileinto "a" "b";
                          ^
    2> refused 18 BadArguments at 3
    [1]

## arguments before a test
    $ printf 'if "x" true { keep; }' > script
    $ depot explain script
    script:1:1: error: `if` has too many arguments: it takes none before its test
      if "x" true { keep; }
      ^
    2> refused 18 BadArguments at 0
    [1]

## argument of another kind
    $ printf 'require "fileinto"; fileinto ["a", "b"];' > script
    $ depot explain script
    script:1:21: error: `fileinto` has an argument of the wrong kind: it takes one string without brackets
      require "fileinto"; fileinto ["a", "b"];
                          ^
    2> refused 18 BadArguments at 3
    [1]

## units with more letters
    $ for unit in MB KB GiB ' MB' ' bytes' k
    > do
    >     printf 'if anyof (true, size :over 5%s) { discard; }' "$unit" > script
    >     depot explain script 2> refused | sed -n 1p
    >     cat refused
    > done
    script:1:17: error: the units of a number are K, M and G: write the letter directly after the number, with nothing after it, as in 5M
    refused 18 BadArguments at 5
    script:1:17: error: the units of a number are K, M and G: write the letter directly after the number, with nothing after it, as in 5M
    refused 18 BadArguments at 5
    script:1:17: error: the units of a number are K, M and G: write the letter directly after the number, with nothing after it, as in 5M
    refused 18 BadArguments at 5
    script:1:17: error: the units of a number are K, M and G: write the letter directly after the number, with nothing after it, as in 5M
    refused 18 BadArguments at 5
    script:1:17: error: the units of a number are K, M and G: write the letter directly after the number, with nothing after it, as in 5M
    refused 18 BadArguments at 5
    ok

## unit of a part's octets
    $ printf 'require ["foreverypart", "vnd.depot"];\nforeverypart {\n    if partbody :first 5KB :contains "bill" { discard; }\n}\n' > script
    $ depot explain script
    script:3:8: error: the units of a number are K, M and G: write the letter directly after the number, with nothing after it, as in 5M
          if partbody :first 5KB :contains "bill" { discard; }
             ^
    2> refused 18 BadArguments at 10
    [1]

## missing order
    $ printf 'if size 100K { discard; }' > script
    $ depot explain script
    script:1:4: error: `size` needs `:over` or `:under`
      if size 100K { discard; }
         ^
    2> refused 18 BadArguments at 1
    [1]

Tags.

## tag that is none
    $ cat > script << 'END'
    > require "fileinto";
    > if header :contains "Subject" "bill" {
    >     fileinto :copy "Bills";
    > }
    > END
    $ depot explain script
    script:3:5: error: depot has no `:copy`: a `keep` and a `fileinto` together file a message twice
          fileinto :copy "Bills";
          ^
    2> refused 18 BadArguments at 9
    [1]

## tag without its colon
    $ printf 'if header "Subject" contains "x" { keep; }' > script
    $ depot explain script
    script:1:4: error: `contains` is a tag: is a colon missing before it?
      if header "Subject" contains "x" { keep; }
         ^
    2> refused 18 BadArguments at 1
    [1]

## name of a loop without its colon
    $ printf 'require "foreverypart"; foreverypart name "x" { keep; }' > script
    $ depot explain script
    script:1:25: error: `name` is a tag: is a colon missing before it?
      require "foreverypart"; foreverypart name "x" { keep; }
                              ^
    2> refused 18 BadArguments at 3
    [1]

## name of a loop in brackets
    $ printf 'require "foreverypart"; foreverypart :name ["x"] { keep; }' > script
    $ depot explain script
    script:1:25: error: `:name` needs the name of a loop, one string without brackets
      require "foreverypart"; foreverypart :name ["x"] { keep; }
                              ^
    2> refused 18 BadArguments at 3
    [1]

## foreign tag
    $ printf 'require "fileinto"; fileinto :is "a";' > script
    $ depot explain script
    script:1:21: error: `fileinto` takes no tag `:is`
      require "fileinto"; fileinto :is "a";
                          ^
    2> refused 18 BadArguments at 3
    [1]

## late tag
    $ printf 'if header "Subject" :is "a" { keep; }' > script
    $ depot explain script
    script:1:4: error: the tag `:is` has to come before the other arguments
      if header "Subject" :is "a" { keep; }
         ^
    2> refused 18 BadArguments at 1
    [1]

## repeated tag
    $ printf 'if header :is :is "Subject" "a" { keep; }' > script
    $ depot explain script
    script:1:4: error: `:is` is repeated, or used with another tag of its kind
      if header :is :is "Subject" "a" { keep; }
         ^
    2> refused 18 BadArguments at 1
    [1]

## two ways to match
    $ printf 'if header :is :matches "Subject" "a" { keep; }' > script
    $ depot explain script
    script:1:4: error: `:matches` is repeated, or used with another tag of its kind
      if header :is :matches "Subject" "a" { keep; }
         ^
    2> refused 18 BadArguments at 1
    [1]

## two modifiers
    $ printf 'require "variables"; set :upper :lower "a" "b";' > script
    $ depot explain script
    script:1:22: error: `:lower` can't be used with another modifier of the same precedence
      require "variables"; set :upper :lower "a" "b";
                           ^
    2> refused 18 BadArguments at 3
    [1]

## tag without its argument
    $ printf 'if header :comparator "i;unicode" :is "Subject" "a" { keep; }' > script
    $ depot explain script
    script:1:4: error: `:comparator` needs the name of a comparator, "i;octet" or "i;ascii-casemap"
      if header :comparator "i;unicode" :is "Subject" "a" { keep; }
         ^
    2> refused 18 BadArguments at 1
    [1]

## tag without mime
    $ printf 'require "mime"; if header :anychild :is "Subject" "a" { keep; }' > script
    $ depot explain script
    script:1:20: error: `:anychild` is allowed only with `:mime`, which needs `require "mime"`
      require "mime"; if header :anychild :is "Subject" "a" { keep; }
                         ^
    2> refused 18 BadArguments at 4
    [1]

## tag without mime or require
    $ printf 'if header :anychild :is "Subject" "a" { keep; }' > script
    $ depot explain script
    script:1:4: error: `:anychild` is allowed only with `:mime`, which needs `require "mime"`
      if header :anychild :is "Subject" "a" { keep; }
         ^
    2> refused 18 BadArguments at 1
    [1]

Variables.

## name that is none
    $ printf 'require "variables"; set "1x" "b";' > script
    $ depot explain script
    script:1:22: error: "1x" isn't a valid name of a variable
      require "variables"; set "1x" "b";
                           ^
    2> refused 18 BadArguments at 3
    [1]

## namespace
    $ printf 'require ["variables", "fileinto"]; fileinto "${a.b}";' > script
    $ depot explain script
    script:1:36: error: "${a.b}" refers to a namespace, but depot has none
      require ["variables", "fileinto"]; fileinto "${a.b}";
                                         ^
    2> refused 18 BadArguments at 7
    [1]

## capture above nine
    $ printf 'require ["variables", "fileinto"]; fileinto "a${10}";' > script
    $ depot explain script
    script:1:36: error: "a${10}" refers to a number above 9, but there are only 0 to 9
      require ["variables", "fileinto"]; fileinto "a${10}";
                                         ^
    2> refused 18 BadArguments at 7
    [1]

## strings as written
    $ printf 'require ["fileinto", "foreverypart", "vnd.depot"]; store "${a.b}";' > script
    $ depot explain script
    script:1:52: error: `store` is allowed only inside a `foreverypart`
      require ["fileinto", "foreverypart", "vnd.depot"]; store "${a.b}";
                                                         ^
    2> refused 18 BadArguments at 9
    [1]

Places.

## break outside
    $ printf 'require "foreverypart"; break;' > script
    $ depot explain script
    script:1:25: error: `break` is allowed only inside a `foreverypart`
      require "foreverypart"; break;
                              ^
    2> refused 18 BadArguments at 3
    [1]

## no such loop
    $ printf 'require "foreverypart";\nforeverypart :name "parts" {\n\tbreak :name "part";\n}\n' > script
    $ depot explain script
    script:3:2: error: no `foreverypart` around this `break` has the name "part"
       break :name "part";
       ^
    2> refused 18 BadArguments at 7
    [1]

## loop whose name can't be read
    $ cat > script << 'END'
    > require "foreverypart";
    > foreverypart :name parts {
    >     break :name "parts";
    > }
    > foreverypart :name 5 {
    >     foreverypart {
    >         break :name "parts";
    >     }
    > }
    > foreverypart :name "part" {
    >     break :name "parts";
    > }
    > END
    $ depot explain script
    script:2:1: error: `:name` needs the name of a loop, one string without brackets
      foreverypart :name parts {
      ^
    script:5:1: error: `:name` needs the name of a loop, one string without brackets
      foreverypart :name 5 {
      ^
    script:11:5: error: no `foreverypart` around this `break` has the name "parts"
          break :name "parts";
          ^
    2> refused 18 BadArguments at 3
    [1]

## store outside
    $ printf 'require "vnd.depot"; store "a";' > script
    $ depot explain script
    script:1:22: error: `store` is allowed only inside a `foreverypart`
      require "vnd.depot"; store "a";
                           ^
    2> refused 18 BadArguments at 3
    [1]

## part test outside
    $ printf 'require "vnd.depot"; if partsize :over 1K { discard; }' > script
    $ depot explain script
    script:1:25: error: `partsize` is allowed only inside a `foreverypart`
      require "vnd.depot"; if partsize :over 1K { discard; }
                              ^
    2> refused 18 BadArguments at 4
    [1]

Limits.

## fourth loop
    $ printf 'require "foreverypart"; foreverypart { foreverypart { foreverypart {\n foreverypart { } } } }' > script
    $ depot explain script
    script:2:2: error: more than 3 loops are nested here
       foreverypart { } } } }
       ^
    2> refused 19 Limit at 9
    [1]

## long name
    $ printf 'require ["variables", "fileinto"]; fileinto "${aaaaaaaaaaaaaaaaaaaaaaaaaaaaaaaaa}";' > script
    $ depot explain script
    script:1:36: error: the name of a variable, "aaaaaaaaaaaaaaaaaaaaaaaaaaaaaaaaa", has more than 32 bytes
      require ["variables", "fileinto"]; fileinto "${aaaaaaaaaaaaaaaaaaaaaaaaaaaaaaaaa}";
                                         ^
    2> refused 19 Limit at 7
    [1]

## segments too many
    $ segments=$(printf '%129s' '' | sed 's/ /${1}a/g')
    > printf 'require ["variables", "fileinto"]; fileinto "%s";' "$segments" > script
    $ depot explain script
    script:1:36: error: the string "${1}a${1}a${1}a${1}a${1}a${1}a${1}a${1}a${1}a${1}a${1}a${1}a..." has more than 256 references and pieces of text between them
      require ["variables", "fileinto"]; fileinto "${1}a${1}a${1}a${1}a${1}a${1}a${1}a${1}a${1}a${1}a...
                                         ^
    2> refused 19 Limit at 7
    [1]

## string too long
    $ printf 'require "fileinto"; fileinto "%s";' "$(printf '%16385s' '' | tr ' ' x)" > script
    $ depot explain script
    script:1:21: error: the string "xxxxxxxxxxxxxxxxxxxxxxxxxxxxxxxxxxxxxxxxxxxxxxxxxxxxxxxxxxxx..." has more than 16384 bytes
      require "fileinto"; fileinto "xxxxxxxxxxxxxxxxxxxxxxxxxxxxxxxxxxxxxxxxxxxxxxxxxx...
                          ^
    2> refused 19 Limit at 3
    [1]

## strings too many
    $ printf 'if exists [%s"a"] { keep; }' "$(printf '%512s' '' | sed 's/ /"a", /g')" > script
    $ depot explain script
    script:1:4: error: the lists of `exists` have more than 512 strings
      if exists ["a", "a", "a", "a", "a", "a", "a", "a", "a", "a", "a...
         ^
    2> refused 19 Limit at 1
    [1]

## variables too many
    $ awk 'BEGIN { print "require \"variables\";"; for (n = 0; n <= 128; n++) printf "set \"v%03d\" \"\";\n", n }' > script
    $ depot explain script
    script:130:1: error: with this `set` the script has more than 128 variables
      set "v128" "";
      ^
    2> refused 19 Limit at 515
    [1]

How many are shown.

## twenty
    $ awk 'BEGIN { for (n = 1; n <= 20; n++) print "kep" n ";" }' > script
    $ depot explain script | tail -n 3
    script:20:1: error: unknown command `kep20`
      kep20;
      ^
    2> refused 15 UnknownCommand at 0

## more than twenty
    $ awk 'BEGIN { for (n = 1; n <= 21; n++) print "kep" n ";" }' > script
    $ depot explain script | tail -n 4
    script:20:1: error: unknown command `kep20`
      kep20;
      ^
    script: note: only the first 20 errors are shown
    2> refused 15 UnknownCommand at 0

## more than twenty of one require
    $ awk 'BEGIN { printf "require [\"fileinto\""; for (n = 1; n <= 21; n++) printf ", \"x%d\"", n; print "];" }' > script
    $ depot explain script | grep -c '^script:1:[0-9]*: error: unknown capability'
    20
    2> refused 17 UnknownCapability at 0
    $ depot explain script 2> refused | tail -n 1
    script: note: only the first 20 errors are shown

Files that are no script.

## a compiled program
    $ printf 'SVBC\002\000' > script
    $ depot explain script
    script:1:5: error: `\02` isn't allowed outside of strings and comments
      SVBC\02\00
          ^
    script: note: the file begins like a compiled program: `depot disassemble` prints the instructions of one
    2> refused 11 Lexical at 4
    [1]

## a mail
    $ printf 'From: ann@example.org\r\nSubject: bill\r\n\r\nkeep;\r\n' > script
    $ depot explain script
    script:1:5: error: this colon has no tag name directly after it
      From: ann@example.org
          ^
    script: note: the file begins with a header field, like a mail: is it a script?
    2> refused 11 Lexical at 4
    [1]

## a mail whose first field has a hyphen in its name
    $ depot explain examples/invoice.eml 2> refused | tail -n 1
    examples/invoice.eml: note: the file begins with a header field, like a mail: is it a script?

## a mail that is too long for a script
    $ { printf 'Subject: long\n\n'; printf '%65536s' ''; } > script
    $ depot explain script 2> refused | tail -n 1
    script: note: the file begins with a header field, like a mail: is it a script?
    $ cat refused
    refused 12 ScriptTooLong

## a tag directly behind a name, and a comment
    $ for text in 'keep:x;' '# Note: kep' ': x'; do printf '%s\nkep;\n' "$text" > script; depot explain script 2> refused | grep -c note; done; true
    0
    0
    0

How the line and the name of the file are printed.

## lines with returns
    $ printf 'require "fileinto";\r\nif true {\r\n\tfileinto "a" 1;\r\n}\r\n' > script
    $ depot explain script
    script:3:2: error: `fileinto` has too many arguments: it takes one string without brackets
       fileinto "a" 1;
       ^
    2> refused 18 BadArguments at 6
    [1]

## long line
    $ cat > script << 'END'
    > # ----------------------------------------------------------------------
    > if anyof (exists "X-00", exists "X-01", exists "X-02", exists "X-03", exists "X-04", exists "X-05", exists "X-06", exists "X-07", exists "X-08", exist "X", exists "Y-00", exists "Y-01", exists "Y-02", exists "Y-03", exists "Y-04", exists "Y-05", exists "Y-06", exists "Y-07", exists "Y-08") { keep; }
    > END
    $ depot explain script
    script:2:146: error: unknown test `exist`, did you mean `exists`?
      ...exists "X-05", exists "X-06", exists "X-07", exists "X-08", exist "X", exists "Y-00", exists "Y-01", exists "Y-02", exis...
                                                                     ^
    2> refused 15 UnknownCommand at 30
    [1]

## long word
    $ printf '%s;' "$(printf '%100s' '' | tr ' ' x)" > script
    $ depot explain script
    script:1:1: error: unknown command `xxxxxxxxxxxxxxxxxxxxxxxxxxxxxxxxxxxxxxxxxxxxxxxxxxxxxxxxxxxx...`
      xxxxxxxxxxxxxxxxxxxxxxxxxxxxxxxxxxxxxxxxxxxxxxxxxxxxxxxxxxxx...
      ^
    2> refused 15 UnknownCommand at 0
    [1]

## tabs and other signs
    $ printf '\t\tkeep\t"a\1\177b\\";\342\202\254";' > script
    $ depot explain script
    script:1:3: error: `keep` has too many arguments: it takes none
        keep "a\01\7fb\";€";
        ^
    2> refused 18 BadArguments at 0
    [1]

## letters outside of ASCII
    $ for text in 'Gr\303\274\303\237e' '\346\227\245\346\234\254' 'e\314\201' '\360\237\230\200'; do
    >     printf "if header :contains \"Subject\" \"$text\" { kep; }" > script; depot explain script 2> refused
    > done; cat refused
    script:1:41: error: unknown command `kep`, did you mean `keep`?
      if header :contains "Subject" "Grüße" { kep; }
                                              ^
    script:1:38: error: unknown command `kep`, did you mean `keep`?
      if header :contains "Subject" "日本" { kep; }
                                             ^
    script:1:38: error: unknown command `kep`, did you mean `keep`?
      if header :contains "Subject" "é" { kep; }
                                          ^
    script:1:37: error: unknown command `kep`, did you mean `keep`?
      if header :contains "Subject" "😀" { kep; }
                                           ^
    refused 15 UnknownCommand at 6

## characters that show nothing or turn the direction of writing, and bytes that aren't UTF-8
    $ for text in '\342\200\256' 'a\342\200\213b' 'a\302\240b' '\302\233' '\377' '\346\227'; do
    >     printf "if header :contains \"Subject\" \"$text\" { kep; }" > script; depot explain script 2> refused
    > done; cat refused
    script:1:37: error: unknown command `kep`, did you mean `keep`?
      if header :contains "Subject" "\e2\80\ae" { kep; }
                                                  ^
    script:1:39: error: unknown command `kep`, did you mean `keep`?
      if header :contains "Subject" "a\e2\80\8bb" { kep; }
                                                    ^
    script:1:39: error: unknown command `kep`, did you mean `keep`?
      if header :contains "Subject" "a\c2\a0b" { kep; }
                                                 ^
    script:1:37: error: unknown command `kep`, did you mean `keep`?
      if header :contains "Subject" "\c2\9b" { kep; }
                                               ^
    script:1:37: error: unknown command `kep`, did you mean `keep`?
      if header :contains "Subject" "\ff" { kep; }
                                            ^
    script:1:38: error: unknown command `kep`, did you mean `keep`?
      if header :contains "Subject" "\e6\97" { kep; }
                                               ^
    refused 15 UnknownCommand at 6

## letters outside of ASCII in a sentence
    $ printf 'require ["gr\303\274\303\237e", "b\342\200\256"];' > script
    $ depot explain script
    script:1:10: error: unknown capability "grüße": depot has "fileinto", "variables", "mime", "foreverypart", "vnd.depot", "comparator-i;octet" and "comparator-i;ascii-casemap"
      require ["grüße", "b\e2\80\ae"];
               ^
    script:1:19: error: unknown capability "b\e2\80\ae": depot has "fileinto", "variables", "mime", "foreverypart", "vnd.depot", "comparator-i;octet" and "comparator-i;ascii-casemap"
      require ["grüße", "b\e2\80\ae"];
                        ^
    2> refused 17 UnknownCapability at 0
    [1]

## a long line of letters outside of ASCII
    $ letters() { for n in $(seq 61); do printf "$1"; done; }
    > { printf 'if header "Subject" "'; letters '\303\274'; printf '" { kep; } # '; letters '\346\227\245'; } > script
    > depot explain script
    script:1:87: error: unknown command `kep`, did you mean `keep`?
      ...üüüüüüüüüüüüüüüüüüüüüüüüüüüüüüüüüüüüüüüüüüüüüüüüüüüüüüüü" { kep; } # 日日日日日日日日日日日日日日日日日日日日日日日日日日日日日日日日日日日日日日日日日日日日日日日日日日日...
                                                                     ^
    2> refused 15 UnknownCommand at 5
    [1]

## name with signs
    $ printf 'kep;' > 'a b:1.sieve'
    $ depot explain 'a b:1.sieve'
    a b:1.sieve:1:1: error: unknown command `kep`, did you mean `keep`?
      kep;
      ^
    2> refused 15 UnknownCommand at 0
    [1]

## name with control characters
    $ name=$(printf 'a\033[2J\177\n\303\251.sieve')
    > printf 'kep;' > "$name"
    > depot explain "$name"; rm "$name"
    a\1b[2J\7f\0aé.sieve:1:1: error: unknown command `kep`, did you mean `keep`?
      kep;
      ^
    2> refused 15 UnknownCommand at 0

## line that reads as a remark
    $ printf '/*\nscript:9:9: error: all is well */ kep;' > script
    $ depot explain script
    script:2:35: error: unknown command `kep`, did you mean `keep`?
      script:9:9: error: all is well */ kep;
                                        ^
    2> refused 15 UnknownCommand at 0
    [1]

## standard input
    $ echo 'kep;' | depot explain /dev/stdin
    /dev/stdin:1:1: error: unknown command `kep`, did you mean `keep`?
      kep;
      ^
    2> refused 15 UnknownCommand at 0
    [1]

More than one fault.

## each that is refused
    $ cat > script << 'END'
    > if header :contains "Subject" "bill" {
    >     fileinto "Bills";
    >     fileinto "Paid";
    >     vacation;
    > } elseif size :over 5M {
    >     discard
    >     keep;
    > } else {
    >     stop "now";
    > }
    > END
    $ depot explain script
    script:2:5: error: `fileinto` needs `require "fileinto"` before it
          fileinto "Bills";
          ^
    script:4:5: error: depot has no `vacation`: it sends no mail, the mail server can do that
          vacation;
          ^
    script:5:3: error: unknown command `elseif`, did you mean `elsif`?
      } elseif size :over 5M {
        ^
    script:6:5: error: `discard` takes no test: is a semicolon missing at its end?
          discard
          ^
    script:9:5: error: `stop` has too many arguments: it takes none
          stop "now";
          ^
    2> refused 16 MissingCapability at 6
    [1]

## at most twenty
    $ awk 'BEGIN { for (n = 1; n <= 25; n++) print "kep;" }' > script
    $ depot explain script | grep -c 'error: unknown command `kep`'
    20
    2> refused 15 UnknownCommand at 0

## the block of a loop too many
    $ printf 'require "foreverypart"; foreverypart { foreverypart { foreverypart {\n foreverypart { kep; }\n kep; } } }' > script
    $ depot explain script
    script:2:2: error: more than 3 loops are nested here
       foreverypart { kep; }
       ^
    script:3:2: error: unknown command `kep`, did you mean `keep`?
       kep; } } }
       ^
    2> refused 19 Limit at 9
    [1]
