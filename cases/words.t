# The words of the command line

No word: a message is read from standard input and kept.

## no word
    $ depot
    keep
    charged 2 of 2

Words that are wrong.

## unknown command
    $ depot quarantine
    2> error: unrecognized subcommand 'quarantine'
    2>
    2> Usage: depot [COMMAND]
    2>
    2> For more information, try '--help'.
    [2]

## other than ascii
    $ depot é
    2> error: unrecognized subcommand '\c3\a9'
    2>
    2> Usage: depot [COMMAND]
    2>
    2> For more information, try '--help'.
    [2]

## control characters
    $ depot "$(printf 'fil\1e\33[31m\177')"
    2> error: unrecognized subcommand 'fil\01e\1b[31m\7f'
    2>
    2> Usage: depot [COMMAND]
    2>
    2> For more information, try '--help'.
    [2]

## unknown flag
    $ depot --frobnicate
    2> error: unexpected argument '--frobnicate' found
    2>
    2> Usage: depot [COMMAND]
    2>
    2> For more information, try '--help'.
    [2]

## unknown encoding
    $ depot encode uuencode
    2> error: invalid value 'uuencode' for '<ENCODING>'
    2>   [possible values: raw, base64, base64-mime, base32, base32hex, base16, qp]
    2>
    2> For more information, try '--help'.
    [2]

## missing encoding
    $ depot decode
    2> error: the following required arguments were not provided:
    2>   <ENCODING>
    2>
    2> Usage: depot decode <ENCODING>
    2>
    2> For more information, try '--help'.
    [2]

## missing argument
    $ depot run examples/keep.svbc
    2> error: the following required arguments were not provided:
    2>   <MESSAGE>
    2>
    2> Usage: depot run <PROGRAM> <MESSAGE>
    2>
    2> For more information, try '--help'.
    [2]

## extra argument
    $ depot verify a b
    2> error: unexpected argument 'b' found
    2>
    2> Usage: depot verify <PROGRAM>
    2>
    2> For more information, try '--help'.
    [2]

Numbers of entries, which go from 1 to 4,294,967,295. The depot isn't opened, so no file is made.

## number 0
    $ depot export mail.depot ann 0 raw
    2> error: invalid value '0' for '<NUMBER>': 0 is not in 1..=4294967295
    2>
    2> For more information, try '--help'.
    [2]
    $ depot remove mail.depot ann 0
    2> error: invalid value '0' for '<NUMBER>': 0 is not in 1..=4294967295
    2>
    2> For more information, try '--help'.
    [2]
    $ test ! -e mail.depot

## number too large
    $ depot export mail.depot ann 4294967296 raw
    2> error: invalid value '4294967296' for '<NUMBER>': 4294967296 is not in 1..=4294967295
    2>
    2> For more information, try '--help'.
    [2]
    $ depot remove mail.depot ann 4294967296
    2> error: invalid value '4294967296' for '<NUMBER>': 4294967296 is not in 1..=4294967295
    2>
    2> For more information, try '--help'.
    [2]

## number below 0
    $ depot export mail.depot ann -1 raw
    2> error: unexpected argument '-1' found
    2>
    2>   tip: to pass '-1' as a value, use '-- -1'
    2>
    2> Usage: depot export <DB> <USER> <NUMBER> <ENCODING>
    2>
    2> For more information, try '--help'.
    [2]
    $ depot remove mail.depot ann -1
    2> error: unexpected argument '-1' found
    2>
    2>   tip: to pass '-1' as a value, use '-- -1'
    2>
    2> Usage: depot remove <DB> <USER> <NUMBER>
    2>
    2> For more information, try '--help'.
    [2]
    $ depot remove -- mail.depot ann -1
    2> error: invalid value '-1' for '<NUMBER>': -1 is not in 1..=4294967295
    2>
    2> For more information, try '--help'.
    [2]

## number in words
    $ depot export mail.depot ann one raw
    2> error: invalid value 'one' for '<NUMBER>': invalid digit found in string
    2>
    2> For more information, try '--help'.
    [2]
    $ depot remove mail.depot ann one
    2> error: invalid value 'one' for '<NUMBER>': invalid digit found in string
    2>
    2> For more information, try '--help'.
    [2]

## number that is empty
    $ depot remove mail.depot ann ''
    2> error: invalid value '' for '<NUMBER>': cannot parse integer from empty string
    2>
    2> For more information, try '--help'.
    [2]

## the largest number, and one with a plus sign and zeros, are numbers
    $ depot deliver mail.depot ann examples/forwarded.eml
    1 message "INBOX"
    $ depot remove mail.depot ann 4294967295
    2> refused 40 NoSuchEntry
    [1]
    $ depot remove mail.depot ann +001
    removed 1

Numbers after which `since` lists, which go from 0 to 4,294,967,295. Here, too, no file is made.

## a list after a number that is too large
    $ depot since mail.depot ann 4294967296
    2> error: invalid value '4294967296' for '<NUMBER>': 4294967296 is not in 0..=4294967295
    2>
    2> For more information, try '--help'.
    [2]
    $ depot since mail.depot ann 18446744073709551616
    2> error: invalid value '18446744073709551616' for '<NUMBER>': number too large to fit in target type
    2>
    2> For more information, try '--help'.
    [2]
    $ test ! -e mail.depot

## a list after a number below 0
    $ depot since mail.depot ann -1
    2> error: unexpected argument '-1' found
    2>
    2>   tip: to pass '-1' as a value, use '-- -1'
    2>
    2> Usage: depot since <DB> <USER> <NUMBER>
    2>
    2> For more information, try '--help'.
    [2]
    $ depot since -- mail.depot ann -1
    2> error: invalid value '-1' for '<NUMBER>': invalid digit found in string
    2>
    2> For more information, try '--help'.
    [2]
    $ test ! -e mail.depot

## a list after what is no number, or after none
    $ depot since mail.depot ann one
    2> error: invalid value 'one' for '<NUMBER>': invalid digit found in string
    2>
    2> For more information, try '--help'.
    [2]
    $ depot since mail.depot ann ''
    2> error: invalid value '' for '<NUMBER>': cannot parse integer from empty string
    2>
    2> For more information, try '--help'.
    [2]
    $ depot since mail.depot ann
    2> error: the following required arguments were not provided:
    2>   <NUMBER>
    2>
    2> Usage: depot since <DB> <USER> <NUMBER>
    2>
    2> For more information, try '--help'.
    [2]
    $ depot since mail.depot ann 1 2
    2> error: unexpected argument '2' found
    2>
    2> Usage: depot since <DB> <USER> <NUMBER>
    2>
    2> For more information, try '--help'.
    [2]
    $ test ! -e mail.depot

## the smallest and the largest number after which entries are listed, with a plus sign and zeros
    $ depot since mail.depot ann +000
    none
    $ depot since mail.depot ann 04294967295
    none

The same number of `catalog`, which can be left out. These files aren't made, either.

## a catalog after what is no such number
    $ depot catalog mail.depot ann 4294967296
    2> error: invalid value '4294967296' for '[NUMBER]': 4294967296 is not in 0..=4294967295
    2>
    2> For more information, try '--help'.
    [2]
    $ depot catalog mail.depot ann 18446744073709551616
    2> error: invalid value '18446744073709551616' for '[NUMBER]': number too large to fit in target type
    2>
    2> For more information, try '--help'.
    [2]
    $ depot catalog -- mail.depot ann -1
    2> error: invalid value '-1' for '[NUMBER]': invalid digit found in string
    2>
    2> For more information, try '--help'.
    [2]
    $ depot catalog mail.depot ann one
    2> error: invalid value 'one' for '[NUMBER]': invalid digit found in string
    2>
    2> For more information, try '--help'.
    [2]
    $ depot catalog mail.depot ann ''
    2> error: invalid value '' for '[NUMBER]': cannot parse integer from empty string
    2>
    2> For more information, try '--help'.
    [2]
    $ test ! -e mail.depot

## a catalog without a user, with a word too many, and with one that is taken for an option
    $ depot catalog mail.depot
    2> error: the following required arguments were not provided:
    2>   <USER>
    2>
    2> Usage: depot catalog <DB> <USER> [NUMBER]
    2>
    2> For more information, try '--help'.
    [2]
    $ depot catalog mail.depot ann 1 2
    2> error: unexpected argument '2' found
    2>
    2> Usage: depot catalog <DB> <USER> [NUMBER]
    2>
    2> For more information, try '--help'.
    [2]
    $ depot catalog mail.depot ann -1
    2> error: unexpected argument '-1' found
    2>
    2>   tip: to pass '-1' as a value, use '-- -1'
    2>
    2> Usage: depot catalog <DB> <USER> [NUMBER]
    2>
    2> For more information, try '--help'.
    [2]
    $ test ! -e mail.depot

## the smallest and the largest number of a catalog, with a plus sign and zeros, and none
    $ depot catalog mail.depot ann +000
    $ depot catalog mail.depot ann 04294967295
    $ depot catalog mail.depot ann

Other words that are no command.

## a word that isn't UTF-8
    $ depot "$(printf 'caf\351')"
    2> error: a word isn't UTF-8
    [2]
    $ depot list mail.depot "$(printf 'caf\351')"
    2> error: a word isn't UTF-8
    [2]

## words with version
    $ depot version
    2> error: unrecognized subcommand 'version'
    2>
    2>   tip: a similar subcommand exists: 'verify'
    2>
    2> Usage: depot [COMMAND]
    2>
    2> For more information, try '--help'.
    [2]
    $ depot check --version
    2> error: unexpected argument '--version' found
    2>
    2>   tip: to pass '--version' as a value, use '-- --version'
    2>
    2> Usage: depot check <SCRIPT>
    2>
    2> For more information, try '--help'.
    [2]

The version: one line, as help is given.

## version
    $ depot --version
    2> depot 0.38.1, proved with Rattle, logic dac8208d650f15bf
    [2]
    $ depot -V
    2> depot 0.38.1, proved with Rattle, logic dac8208d650f15bf
    [2]

Help.

## help
    $ depot --help
    2> File mail and its parts by Sieve filters whose behaviour is proved
    2>
    2> Usage: depot [COMMAND]
    2>
    2> Commands:
    2>   check        Check a Sieve script for mistakes
    2>   explain      Describe the mistakes in a Sieve script, and show their lines
    2>   compile      Compile a Sieve script to a filter program (bytecode)
    2>   verify       Check that a filter program is safe to run, and print the most that it can cost
    2>   limit        Print the most that a filter program can cost and file, for messages up to a size
    2>   run          Run a filter program on a message, and print its actions and cost
    2>   disassemble  Print a filter program as a listing, an instruction a line
    2>   assemble     Assemble a listing to a filter program (bytecode)
    2>   eval         Run a Sieve script on a message, and print its actions and cost
    2>   trace        Run a Sieve script or a filter program on a message, and print each step
    2>   parts        List the parts of a message, with number, depth, media type, length and SHA-256
    2>   encode       Encode the bytes of standard input as a text
    2>   decode       Decode the text on standard input to bytes
    2>   init         Make a depot in a folder of files, for an archive that grows
    2>   script       Compile a Sieve script, and store it as the filter of a user
    2>   code         Store a filter program (bytecode) as the filter of a user
    2>   program      Write the filter of a user to a file, as a filter program (bytecode)
    2>   deliver      Run the filter of a user on a message, and file the result
    2>   list         List the entries of a user
    2>   since        List the entries of a user with numbers above NUMBER
    2>   catalog      Describe the entries of a user for programs, in JSON, an entry a line
    2>   export       Write the bytes of an entry to standard output, in an encoding
    2>   remove       Remove an entry of a user
    2>   migrate      Convert the filters of all users to the latest version of the bytecode
    2>   inspect      Report whether a file is a depot, and what it holds
    2>   scrub        Compare every stored content with its SHA-256
    2>   batch        Run the commands on standard input, one a line, on a depot
    2>   help         Print this message or the help of the given subcommand(s)
    2>
    2> Options:
    2>   -h, --help  Print help
    2>
    2> To try a filter: `depot explain filter.sieve`, then `depot eval filter.sieve mail.eml`.
    2> `depot help COMMAND` shows what a command prints, an example, and the refusals that it can end with;
    2> `depot help 43` or `depot help Database` explains a refusal, and what to do.
    2>
    2> Status 0: done; the answer is on standard output. 1: refused, with the refusal's number and name on
    2> standard error. 2: the words are not a command, or ask for help.
    2> Without words, a program that keeps every message runs on the message on standard input.
    2> `-` is an ordinary file name; standard input is /dev/stdin.
    2>
    2> depot 0.38.1, proved with Rattle, logic dac8208d650f15bf
    [2]

## help command
    $ depot help 2> by_command
    [2]
    $ depot --help 2> by_flag
    [2]
    $ depot -h 2>&1 | cmp - by_flag
    $ cmp by_command by_flag
    $ rm by_command by_flag

## help check
    $ depot check --help
    2> Check a Sieve script for mistakes
    2>
    2> Usage: depot check <SCRIPT>
    2>
    2> Arguments:
    2>   <SCRIPT>  The file of a Sieve script
    2>
    2> Options:
    2>   -h, --help  Print help
    2>
    2> Prints `ok`. If the script has a mistake, the refusal has its place.
    2>
    2> Example:
    2>   depot check filter.sieve
    2>
    2> Status 0: done. 1: refused, with the refusal's number and name on standard error.
    2> 2: the words are not a command, or ask for help.
    2> Refusals: 1, 2, 11 to 19, 45, 46. `depot help NUMBER` explains each, and what to do.
    2> `depot explain SCRIPT` describes what is wrong with a script.
    [2]

## help explain
    $ depot help explain
    2> Describe the mistakes in a Sieve script, and show their lines
    2>
    2> Usage: depot explain <SCRIPT>
    2>
    2> Arguments:
    2>   <SCRIPT>  The file of a Sieve script
    2>
    2> Options:
    2>   -h, --help  Print help
    2>
    2> Prints up to 20 mistakes: a sentence for each, its line, and a mark under the place. For a script
    2> without mistakes it prints `ok`, and notes on what rarely matches or never runs.
    2>
    2> Example:
    2>   depot explain filter.sieve
    2>
    2> Status 0: done. 1: refused, with the refusal's number and name on standard error.
    2> 2: the words are not a command, or ask for help.
    2> Refusals: 1, 2, 11 to 19, 45, 46. `depot help NUMBER` explains each, and what to do.
    [2]

## help compile
    $ depot compile --help
    2> Compile a Sieve script to a filter program (bytecode)
    2>
    2> Usage: depot compile <SCRIPT> <OUT>
    2>
    2> Arguments:
    2>   <SCRIPT>  The file of a Sieve script
    2>   <OUT>     The file to write the filter program to
    2>
    2> Options:
    2>   -h, --help  Print help
    2>
    2> Prints `wrote N octets`, the size of OUT in bytes.
    2>
    2> Example:
    2>   depot compile filter.sieve filter.svbc
    2>
    2> Status 0: done. 1: refused, with the refusal's number and name on standard error.
    2> 2: the words are not a command, or ask for help.
    2> Refusals: 1, 2, 11 to 19, 45, 46. `depot help NUMBER` explains each, and what to do.
    2> `depot explain SCRIPT` describes what is wrong with a script.
    [2]

## help verify
    $ depot verify --help
    2> Check that a filter program is safe to run, and print the most that it can cost
    2>
    2> Usage: depot verify <PROGRAM>
    2>
    2> Arguments:
    2>   <PROGRAM>  The file of a filter program (bytecode)
    2>
    2> Options:
    2>   -h, --help  Print help
    2>
    2> Prints the budget, A0 to B3: on a message of N bytes and P parts a run costs at most the sum of
    2> (Ak + Bk (N + 1)) C(P, k) over k from 0 to 3. C(P, k) is the number of ways to choose k of P parts;
    2> for a program of version 1 it is P^k instead. `depot limit` computes the sum.
    2>
    2> Example:
    2>   depot verify filter.svbc
    2>
    2> Status 0: done. 1: refused, with the refusal's number and name on standard error.
    2> 2: the words are not a command, or ask for help.
    2> Refusals: 1, 2, 20 to 27, 45, 46. `depot help NUMBER` explains each, and what to do.
    [2]

## help limit
    $ depot limit --help
    2> Print the most that a filter program can cost and file, for messages up to a size
    2>
    2> Usage: depot limit <PROGRAM> <OCTETS> <PARTS>
    2>
    2> Arguments:
    2>   <PROGRAM>  The file of a filter program (bytecode)
    2>   <OCTETS>   The most bytes that a message has: 0 to 67108864
    2>   <PARTS>    The most parts that it has, with the message itself: 1 to 4096
    2>
    2> Options:
    2>   -h, --help  Print help
    2>
    2> Prints `charge C`, the most that a run costs; `entries E`, the most entries that a delivery files;
    2> and `octets O`, the most bytes that their contents have, each content counted once.
    2>
    2> Example:
    2>   depot limit filter.svbc 10000000 100
    2>
    2> Status 0: done. 1: refused, with the refusal's number and name on standard error.
    2> 2: the words are not a command, or ask for help.
    2> Refusals: 1, 2, 20 to 27, 45, 46. `depot help NUMBER` explains each, and what to do.
    [2]

## help run
    $ depot run --help
    2> Run a filter program on a message, and print its actions and cost
    2>
    2> Usage: depot run <PROGRAM> <MESSAGE>
    2>
    2> Arguments:
    2>   <PROGRAM>  The file of a filter program (bytecode)
    2>   <MESSAGE>  The file of one mail message (RFC 5322)
    2>
    2> Options:
    2>   -h, --help  Print help
    2>
    2> Prints a line for each action, or `none`; then `charged N of M`: what this run cost, and the most
    2> that a run on a message of this size with as many parts can cost. It files nothing.
    2>
    2> Example:
    2>   depot run filter.svbc mail.eml
    2>
    2> Status 0: done. 1: refused, with the refusal's number and name on standard error.
    2> 2: the words are not a command, or ask for help.
    2> Refusals: 1 to 3, 20 to 27, 45, 46. `depot help NUMBER` explains each, and what to do.
    [2]

## help disassemble
    $ depot help disassemble
    2> Print a filter program as a listing, an instruction a line
    2>
    2> Usage: depot disassemble <PROGRAM>
    2>
    2> Arguments:
    2>   <PROGRAM>  The file of a filter program (bytecode)
    2>
    2> Options:
    2>   -h, --help  Print help
    2>
    2> Prints any program that can be read, even if `verify` refuses it. The last line is a comment with
    2> the budget, or with the refusal.
    2>
    2> Example:
    2>   depot disassemble filter.svbc > filter.listing
    2>
    2> Status 0: done. 1: refused, with the refusal's number and name on standard error.
    2> 2: the words are not a command, or ask for help.
    2> Refusals: 1, 2, 20, 45, 46. `depot help NUMBER` explains each, and what to do.
    [2]

## help assemble
    $ depot help assemble
    2> Assemble a listing to a filter program (bytecode)
    2>
    2> Usage: depot assemble <LISTING> <OUT>
    2>
    2> Arguments:
    2>   <LISTING>  The file of a listing of a filter program
    2>   <OUT>      The file to write the filter program to
    2>
    2> Options:
    2>   -h, --help  Print help
    2>
    2> Prints `wrote N octets`, the size of OUT in bytes; or the mistake in the listing, with its line.
    2>
    2> Example:
    2>   depot assemble filter.listing filter.svbc
    2>
    2> Status 0: done. 1: refused, with the refusal's number and name on standard error.
    2> 2: the words are not a command, or ask for help.
    2> Refusals: 1, 2, 28, 45, 46. `depot help NUMBER` explains each, and what to do.
    [2]

## help eval
    $ depot eval --help
    2> Run a Sieve script on a message, and print its actions and cost
    2>
    2> Usage: depot eval <SCRIPT> <MESSAGE>
    2>
    2> Arguments:
    2>   <SCRIPT>   The file of a Sieve script
    2>   <MESSAGE>  The file of one mail message (RFC 5322)
    2>
    2> Options:
    2>   -h, --help  Print help
    2>
    2> Prints a line for each action, or `none`; then `charged N of M`: what this run cost, and the most
    2> that a run on a message of this size with as many parts can cost. It files nothing.
    2>
    2> Example:
    2>   depot eval filter.sieve mail.eml
    2>
    2> Status 0: done. 1: refused, with the refusal's number and name on standard error.
    2> 2: the words are not a command, or ask for help.
    2> Refusals: 1 to 3, 11 to 19, 45, 46. `depot help NUMBER` explains each, and what to do.
    2> `depot explain SCRIPT` describes what is wrong with a script.
    [2]

## help trace
    $ depot trace --help
    2> Run a Sieve script or a filter program on a message, and print each step
    2>
    2> Usage: depot trace <FILE> <MESSAGE>
    2>
    2> Arguments:
    2>   <FILE>     The file of a Sieve script, or of a filter program (bytecode)
    2>   <MESSAGE>  The file of one mail message (RFC 5322)
    2>
    2> Options:
    2>   -h, --help  Print help
    2>
    2> Prints a line for each test and action of a script, with its place and result, or for each step of
    2> a program; then what `eval` or `run` prints. It files nothing.
    2>
    2> Example:
    2>   depot trace filter.sieve mail.eml
    2>
    2> Status 0: done. 1: refused, with the refusal's number and name on standard error.
    2> 2: the words are not a command, or ask for help.
    2> Refusals: 1 to 3, 11 to 27, 45, 46. `depot help NUMBER` explains each, and what to do.
    2> `depot explain SCRIPT` describes what is wrong with a script.
    [2]

## help parts
    $ depot help parts
    2> List the parts of a message, with number, depth, media type, length and SHA-256
    2>
    2> Usage: depot parts <MESSAGE>
    2>
    2> Arguments:
    2>   <MESSAGE>  The file of one mail message (RFC 5322)
    2>
    2> Options:
    2>   -h, --help  Print help
    2>
    2> The first line is the message itself, number 0 at depth 1. Length and SHA-256 are those of the
    2> decoded content.
    2>
    2> Example:
    2>   depot parts mail.eml
    2>
    2> Status 0: done. 1: refused, with the refusal's number and name on standard error.
    2> 2: the words are not a command, or ask for help.
    2> Refusals: 1 to 3, 45, 46. `depot help NUMBER` explains each, and what to do.
    [2]

## help init
    $ depot help init
    2> Make a depot in a folder of files, for an archive that grows
    2>
    2> Usage: depot init <DIR>
    2>
    2> Arguments:
    2>   <DIR>  The folder to make; it can be there if it is empty
    2>
    2> Options:
    2>   -h, --help  Print help
    2>
    2> Makes the folder DIR with its first volume, 00000001.depot, and prints `made` and its name. From
    2> then on DIR can stand for DB in most commands, which answer as if everything were in one file. When
    2> the newest volume has 8 MiB, the next delivery begins another: a command opens only the volumes that
    2> it needs. batch, scrub and catalog take one file, so they take a volume, and not DIR.
    2>
    2> Example:
    2>   depot init archive
    2>
    2> Status 0: done. 1: refused, with the refusal's number and name on standard error.
    2> 2: the words are not a command, or ask for help.
    2> Refusals: 1, 43, 45. `depot help NUMBER` explains each, and what to do.
    [2]

## help script
    $ depot help script
    2> Compile a Sieve script, and store it as the filter of a user
    2>
    2> Usage: depot script <DB> <USER> <SCRIPT>
    2>
    2> Arguments:
    2>   <DB>      The file of the depot; it is made if it is missing
    2>   <USER>    The name of a user: 1 to 64 of a to z, 0 to 9, dot, underscore and hyphen
    2>   <SCRIPT>  The file of a Sieve script
    2>
    2> Options:
    2>   -h, --help  Print help
    2>
    2> Prints `stored`. With an empty script, as without a filter, every message is kept. The depot has
    2> only the compiled program: keep the script.
    2>
    2> Example:
    2>   depot script mail.depot ann filter.sieve
    2>
    2> Status 0: done. 1: refused, with the refusal's number and name on standard error.
    2> 2: the words are not a command, or ask for help.
    2> Refusals: 1, 2, 11 to 19, 43 to 46. `depot help NUMBER` explains each, and what to do.
    2> DB comes first, then USER: the other way round a new depot is made, in a file with the user's name.
    2> `depot inspect DB` reports what is wrong with DB.
    2> `depot explain SCRIPT` describes what is wrong with a script.
    [2]

## help code
    $ depot help code
    2> Store a filter program (bytecode) as the filter of a user
    2>
    2> Usage: depot code <DB> <USER> <PROGRAM>
    2>
    2> Arguments:
    2>   <DB>       The file of the depot; it is made if it is missing
    2>   <USER>     The name of a user: 1 to 64 of a to z, 0 to 9, dot, underscore and hyphen
    2>   <PROGRAM>  The file of a filter program (bytecode)
    2>
    2> Options:
    2>   -h, --help  Print help
    2>
    2> Prints `stored`. A program that `verify` refuses is not stored.
    2>
    2> Example:
    2>   depot code mail.depot ann filter.svbc
    2>
    2> Status 0: done. 1: refused, with the refusal's number and name on standard error.
    2> 2: the words are not a command, or ask for help.
    2> Refusals: 1, 2, 20 to 27, 43 to 46. `depot help NUMBER` explains each, and what to do.
    2> DB comes first, then USER: the other way round a new depot is made, in a file with the user's name.
    2> `depot inspect DB` reports what is wrong with DB.
    [2]

## help program
    $ depot help program
    2> Write the filter of a user to a file, as a filter program (bytecode)
    2>
    2> Usage: depot program <DB> <USER> <OUT>
    2>
    2> Arguments:
    2>   <DB>    The file of the depot; it is made if it is missing
    2>   <USER>  The name of a user: 1 to 64 of a to z, 0 to 9, dot, underscore and hyphen
    2>   <OUT>   The file to write the filter program to
    2>
    2> Options:
    2>   -h, --help  Print help
    2>
    2> Prints `wrote N octets`, the size of OUT in bytes.
    2>
    2> Example:
    2>   depot program mail.depot ann filter.svbc
    2>
    2> Status 0: done. 1: refused, with the refusal's number and name on standard error.
    2> 2: the words are not a command, or ask for help.
    2> Refusals: 1, 40, 43 to 45. `depot help NUMBER` explains each, and what to do.
    2> DB comes first, then USER: the other way round a new depot is made, in a file with the user's name.
    2> `depot inspect DB` reports what is wrong with DB.
    [2]

## help deliver
    $ depot help deliver
    2> Run the filter of a user on a message, and file the result
    2>
    2> Usage: depot deliver <DB> <USER> <MESSAGE>
    2>
    2> Arguments:
    2>   <DB>       The file of the depot; it is made if it is missing
    2>   <USER>     The name of a user: 1 to 64 of a to z, 0 to 9, dot, underscore and hyphen
    2>   <MESSAGE>  The file of one mail message (RFC 5322)
    2>
    2> Options:
    2>   -h, --help  Print help
    2>
    2> Prints a line for each new entry, or `none`: its number, `message` or `part`, and its folder.
    2> Without a filter the message is filed in the folder INBOX.
    2>
    2> Example:
    2>   depot deliver mail.depot ann mail.eml
    2>
    2> Status 0: done. 1: refused, with the refusal's number and name on standard error.
    2> 2: the words are not a command, or ask for help.
    2> Refusals: 1 to 3, 41 to 46. `depot help NUMBER` explains each, and what to do.
    2> DB comes first, then USER: the other way round a new depot is made, in a file with the user's name.
    2> `depot inspect DB` reports what is wrong with DB.
    [2]

## help list
    $ depot help list
    2> List the entries of a user
    2>
    2> Usage: depot list <DB> <USER>
    2>
    2> Arguments:
    2>   <DB>    The file of the depot; it is made if it is missing
    2>   <USER>  The name of a user: 1 to 64 of a to z, 0 to 9, dot, underscore and hyphen
    2>
    2> Options:
    2>   -h, --help  Print help
    2>
    2> Prints a line for each entry, or `none`: its number, `message` or `part`, its folder, its name, its
    2> media type, and its length in bytes.
    2>
    2> Example:
    2>   depot list mail.depot ann
    2>
    2> Status 0: done. 1: refused, with the refusal's number and name on standard error.
    2> 2: the words are not a command, or ask for help.
    2> Refusals: 1, 43 to 45. `depot help NUMBER` explains each, and what to do.
    2> DB comes first, then USER: the other way round a new depot is made, in a file with the user's name.
    2> `depot inspect DB` reports what is wrong with DB.
    [2]

## help since
    $ depot help since
    2> List the entries of a user with numbers above NUMBER
    2>
    2> Usage: depot since <DB> <USER> <NUMBER>
    2>
    2> Arguments:
    2>   <DB>      The file of the depot; it is made if it is missing
    2>   <USER>    The name of a user: 1 to 64 of a to z, 0 to 9, dot, underscore and hyphen
    2>   <NUMBER>  Only entries above this number are listed: 0 to 4294967295
    2>
    2> Options:
    2>   -h, --help  Print help
    2>
    2> Prints a line for each entry whose number is above NUMBER, as `list` does, or `none`; 0 lists all.
    2> New entries get higher numbers, so a program that fetches new mail keeps the highest number that it
    2> has seen.
    2>
    2> Example:
    2>   depot since mail.depot ann 41
    2>
    2> Status 0: done. 1: refused, with the refusal's number and name on standard error.
    2> 2: the words are not a command, or ask for help.
    2> Refusals: 1, 43 to 45. `depot help NUMBER` explains each, and what to do.
    2> DB comes first, then USER: the other way round a new depot is made, in a file with the user's name.
    2> `depot inspect DB` reports what is wrong with DB.
    [2]

## help catalog
    $ depot help catalog
    2> Describe the entries of a user for programs, in JSON, an entry a line
    2>
    2> Usage: depot catalog <DB> <USER> [NUMBER]
    2>
    2> Arguments:
    2>   <DB>      The file of the depot; it is made if it is missing
    2>   <USER>    The name of a user: 1 to 64 of a to z, 0 to 9, dot, underscore and hyphen
    2>   [NUMBER]  Only entries above this number are described: 0 to 4294967295
    2>
    2> Options:
    2>   -h, --help  Print help
    2>
    2> Prints a JSON object for each entry, an entry a line, and nothing if there is none: what `list`
    2> prints, the SHA-256, which messages have the content of a part, and for a message its main header
    2> fields, its number of parts, and which entries have their contents. docs/INTERFACE.md has the
    2> members. With NUMBER, only entries above it are described, as `since` lists them.
    2>
    2> Example:
    2>   depot catalog mail.depot ann
    2>
    2> Status 0: done. 1: refused, with the refusal's number and name on standard error.
    2> 2: the words are not a command, or ask for help.
    2> Refusals: 1, 43 to 45. `depot help NUMBER` explains each, and what to do.
    2> DB comes first, then USER: the other way round a new depot is made, in a file with the user's name.
    2> `depot inspect DB` reports what is wrong with DB.
    [2]

## help export
    $ depot help export
    2> Write the bytes of an entry to standard output, in an encoding
    2>
    2> Usage: depot export <DB> <USER> <NUMBER> <ENCODING>
    2>
    2> Arguments:
    2>   <DB>        The file of the depot; it is made if it is missing
    2>   <USER>      The name of a user: 1 to 64 of a to z, 0 to 9, dot, underscore and hyphen
    2>   <NUMBER>    The number of an entry, as `list` prints it
    2>   <ENCODING>  The encoding [possible values: raw, base64, base64-mime, base32, base32hex, base16, qp]
    2>
    2> Options:
    2>   -h, --help  Print help
    2>
    2> Writes the entry to standard output. `raw` gives its bytes as they are.
    2>
    2> Example:
    2>   depot export mail.depot ann 1 raw > attached
    2>
    2> Status 0: done. 1: refused, with the refusal's number and name on standard error.
    2> 2: the words are not a command, or ask for help.
    2> Refusals: 1, 40, 43 to 45. `depot help NUMBER` explains each, and what to do.
    2> DB comes first, then USER: the other way round a new depot is made, in a file with the user's name.
    2> `depot inspect DB` reports what is wrong with DB.
    [2]

## help remove
    $ depot help remove
    2> Remove an entry of a user
    2>
    2> Usage: depot remove <DB> <USER> <NUMBER>
    2>
    2> Arguments:
    2>   <DB>      The file of the depot; it is made if it is missing
    2>   <USER>    The name of a user: 1 to 64 of a to z, 0 to 9, dot, underscore and hyphen
    2>   <NUMBER>  The number of an entry, as `list` prints it
    2>
    2> Options:
    2>   -h, --help  Print help
    2>
    2> Prints `removed NUMBER`. The number is not used again.
    2>
    2> Example:
    2>   depot remove mail.depot ann 2
    2>
    2> Status 0: done. 1: refused, with the refusal's number and name on standard error.
    2> 2: the words are not a command, or ask for help.
    2> Refusals: 1, 40, 43 to 45. `depot help NUMBER` explains each, and what to do.
    2> DB comes first, then USER: the other way round a new depot is made, in a file with the user's name.
    2> `depot inspect DB` reports what is wrong with DB.
    [2]

## help migrate
    $ depot help migrate
    2> Convert the filters of all users to the latest version of the bytecode
    2>
    2> Usage: depot migrate <DB>
    2>
    2> Arguments:
    2>   <DB>  The file of the depot; it is made if it is missing
    2>
    2> Options:
    2>   -h, --help  Print help
    2>
    2> Prints `migrated N`, how many filters it converted: all of them, or none. What a filter does stays
    2> the same.
    2>
    2> Example:
    2>   depot migrate mail.depot
    2>
    2> Status 0: done. 1: refused, with the refusal's number and name on standard error.
    2> 2: the words are not a command, or ask for help.
    2> Refusals: 1, 43, 45. `depot help NUMBER` explains each, and what to do.
    [2]

## help inspect
    $ depot help inspect
    2> Report whether a file is a depot, and what it holds
    2>
    2> Usage: depot inspect <DB>
    2>
    2> Arguments:
    2>   <DB>  The file of a depot, or any other file
    2>
    2> Options:
    2>   -h, --help  Print help
    2>
    2> Prints `depot`, the length of its log, a line for each user, and the number and size of its
    2> contents; or `no depot:` and the reason, with status 1. It makes no depot. Like every command on a
    2> depot it makes a missing log, and needs the right to write. Of a folder it prints the path of each
    2> volume and these lines, up to the first that is no depot, and at the end the number of volumes.
    2>
    2> Example:
    2>   depot inspect mail.depot
    2>
    2> Status 0: it is a depot. 1: it is not, or the command is refused, with the refusal's number and
    2> name on standard error. 2: the words are not a command, or ask for help.
    2> Refusals: 1, 43, 45. `depot help NUMBER` explains each, and what to do.
    [2]

## help scrub
    $ depot help scrub
    2> Compare every stored content with its SHA-256
    2>
    2> Usage: depot scrub <DB>
    2>
    2> Arguments:
    2>   <DB>  The file of a depot, or any other file
    2>
    2> Options:
    2>   -h, --help  Print help
    2>
    2> Prints `contents N` and `octets N`, the number and size of the contents; `damaged N`, how many of
    2> them don't have the SHA-256 under which they are stored; and a line for each entry with such a
    2> content: its number, its user and its folder. It reads every content, changes nothing, and makes no
    2> depot. Until it ends, other commands on DB wait, and are refused 43 after ten seconds. If DB is no
    2> depot, `depot inspect DB` prints why.
    2>
    2> Example:
    2>   depot scrub mail.depot
    2>
    2> Status 0: no content is damaged. 1: one is, or the command is refused, with the refusal's number
    2> and name on standard error. 2: the words are not a command, or ask for help.
    2> Refusals: 1, 43, 45. `depot help NUMBER` explains each, and what to do.
    [2]

## help batch
    $ depot help batch
    2> Run the commands on standard input, one a line, on a depot
    2>
    2> Usage: depot batch <DB>
    2>
    2> Arguments:
    2>   <DB>  The file of the depot; it is made if it is missing
    2>
    2> Options:
    2>   -h, --help  Print help
    2>
    2> The lines are commands without DB:
    2>   script USER SCRIPT, code USER PROGRAM, deliver USER MESSAGE, list USER,
    2>   since USER NUMBER, catalog USER NUMBER, export USER NUMBER ENCODING FILE,
    2>   remove USER NUMBER, migrate
    2> One space separates two words. A word with a space, a quotation mark or a line break is written in
    2> quotation marks; in these \22 is a quotation mark, \5c a backslash, \0a a line break.
    2> Each answer is on standard output, with a line after it: = 0 (done), = 1 (refused), or = 2 (not a
    2> command; then the answer begins with ?).
    2> If the first line is `json`, it has no answer, and each later line gets a JSON object on one line.
    2> Until the batch ends, other commands on DB wait, and are refused 43 after ten seconds; `inspect` and
    2> `scrub` don't wait. After a line that is refused 43 the batch ends, and later lines have no answer.
    2>
    2> Example:
    2>   echo deliver ann mail.eml | depot batch mail.depot
    2>
    2> Status 0: the input has ended. 1: a line was refused 43, or the batch itself is refused 1, 43, 45 or
    2> 46, which is on standard error. 2: the words are not a command, or ask for help.
    2> `depot help NUMBER` explains each refusal, and what to do.
    [2]

## help encode
    $ depot encode --help
    2> Encode the bytes of standard input as a text
    2>
    2> Usage: depot encode <ENCODING>
    2>
    2> Arguments:
    2>   <ENCODING>  The encoding [possible values: raw, base64, base64-mime, base32, base32hex, base16, qp]
    2>
    2> Options:
    2>   -h, --help  Print help
    2>
    2> Writes the text to standard output. base64, base32, base32hex and base16 give one line, without a
    2> line break at its end.
    2>
    2> Example:
    2>   depot encode base64 < file > text
    2>
    2> Status 0: done. 1: refused, with the refusal's number and name on standard error.
    2> 2: the words are not a command, or ask for help.
    2> Refusals: 1, 2, 45, 46. `depot help NUMBER` explains each, and what to do.
    [2]

## help decode
    $ depot help decode
    2> Decode the text on standard input to bytes
    2>
    2> Usage: depot decode <ENCODING>
    2>
    2> Arguments:
    2>   <ENCODING>  The encoding [possible values: raw, base64, base64-mime, base32, base32hex, base16, qp]
    2>
    2> Options:
    2>   -h, --help  Print help
    2>
    2> Writes the bytes to standard output. A text in base64, base32, base32hex or base16 can't have line
    2> breaks; use base64-mime for base64 with line breaks.
    2>
    2> Example:
    2>   depot decode base64 < text > file
    2>
    2> Status 0: done. 1: refused, with the refusal's number and name on standard error.
    2> 2: the words are not a command, or ask for help.
    2> Refusals: 1, 2, 10, 45, 46. `depot help NUMBER` explains each, and what to do.
    [2]

Help on a refusal, by its number or its name.

## help on a refusal
    $ depot help 44
    2> 44 UserName
    2>
    2> This is not the name of a user.
    2>
    2> A name is 1 to 64 characters from a to z (lower case), 0 to 9, dot, underscore and hyphen; it has
    2> no @. DB comes first, then USER.
    [2]
    $ depot help UserName 2> by_name
    [2]
    $ depot help 44 2> by_number
    [2]
    $ cmp by_name by_number
    $ rm by_name by_number

## help on a refusal, by its name in either case and a number with a zero
    $ depot help 43 2> by_number
    [2]
    $ for word in database DATABASE 043; do depot help "$word" 2>&1 | cmp - by_number; done
    $ sed -n 1p by_number
    43 Database
    $ rm by_number

## help on the refusal Limit, and on the command limit
    $ for word in Limit LIMIT 19 limit; do depot help "$word" 2>&1 | sed -n 1p; done
    19 Limit
    19 Limit
    19 Limit
    Print the most that a filter program can cost and file, for messages up to a size

## help on a number that no refusal has
    $ for number in 99 4 0 46464646464646464646464646; do depot help $number; done
    2> No refusal has this number. The numbers are 1 to 3, 10 to 28 and 40 to 46.
    2> No refusal has this number. The numbers are 1 to 3, 10 to 28 and 40 to 46.
    2> No refusal has this number. The numbers are 1 to 3, 10 to 28 and 40 to 46.
    2> No refusal has this number. The numbers are 1 to 3, 10 to 28 and 40 to 46.
    [2]

## help on what is no refusal
    $ depot help 4x
    2> error: unrecognized subcommand '4x'
    2>
    2> Usage: depot [COMMAND]
    2>
    2> For more information, try '--help'.
    [2]
    $ depot help ''
    2> error: unrecognized subcommand ''
    2>
    2> Usage: depot [COMMAND]
    2>
    2> For more information, try '--help'.
    [2]
    $ depot help 43 44
    2> error: unrecognized subcommand '43'
    2>
    2> Usage: depot [COMMAND]
    2>
    2> For more information, try '--help'.
    [2]
    $ depot 43
    2> error: unrecognized subcommand '43'
    2>
    2> Usage: depot [COMMAND]
    2>
    2> For more information, try '--help'.
    [2]
