# What the documents say, compared with what they are about, by a script of its own

## the words, the lines, the code, the crates and the holes of the documents
    $ "$TOP/checks/documents"

## each kind of fault in them is found
    $ mkdir copy && (cd "$TOP" && tar c *.md crates.txt docs cases checks crates/*/specs crates/*/src) | tar x -C copy
    $ copy/checks/documents
    $ echo 'It has no colours yet.' >> copy/docs/GUIDE.md
    $ echo 'An octet is dear.' >> copy/SECURITY.md
    $ yes 'A text stands where it may.' | head -n 12 > copy/docs/NEW.md
    $ sed -i "s/ensures large/ensures largest/" copy/README.md
    $ sed -i '/^| `octets` |/s/Ascii/Astray/' copy/docs/generated/CRATES.md
    $ yes '' | head -n 4000 > copy/docs/LONG.md
    $ sed -i '/^| `hex` |/d' copy/docs/DEPENDENCIES.md
    $ sed -i '/^| 0.21.0 |/d' copy/SECURITY.md
    $ copy/checks/documents | sed 's/md:[0-9]*: it/md:N: it/; s/have [0-9,]* lines/have N lines/; /^@@/d; s/^\(.| `octets` |\).*\(Ascii\|Astray\), .*/\1 .. \2 ../'
    The pages that people write have N lines, and 4,000 is the most
    docs/GUIDE.md:N: it says `yet`
    SECURITY.md:N: it says `octet`
    docs/NEW.md: it has 36 words that the rules of style avoid, and 12 is the most: stands 12, where 12, may 12
    README.md: no crate has the code that begins with pub fn execute(alloc: Global, program: &[u8], message: &[u8]) -> Result<Report, Refusal>
    --- docs/generated/CRATES.md
    +++ as checks/documents --write makes it
    -| `octets` | .. Astray ..
    +| `octets` | .. Ascii ..
    docs/DEPENDENCIES.md: there is no row for hex
    SECURITY.md: there is no row for 0.21.0, which CHANGELOG.md has a part about
    $ copy/checks/documents --write && cmp copy/docs/generated/CRATES.md "$TOP/docs/generated/CRATES.md"
    $ rm -r copy

## the doc comments of public items
    $ "$TOP/checks/doc_comments"

## each kind of fault in a doc comment is found
    $ mkdir copy && (cd "$TOP" && tar c checks crates/octets/src crates/readable_text/src) | tar x -C copy
    $ sed -i '/# Errors/d; s|^/// Returns whether a name is .*|/// Is so.|' copy/crates/octets/src/ascii.rt
    $ sed -i '/# Requires/d' copy/crates/readable_text/src/places.rt
    $ sed -i '/^\/\/\//d' copy/crates/octets/src/one_at_a_time.rt
    $ copy/checks/doc_comments octets readable_text | sed 's/^[^:]*:[0-9]*: //'
    is_word has a comment of so few words: Is so.
    to_uppercase can return an error and has no `# Errors`
    to_lowercase can return an error and has no `# Errors`
    first has no comment
    line_number requires something and has no `# Requires`
    octets_before requires something and has no `# Requires`
    line_at requires something and has no `# Requires`
    $ rm -r copy

## figures of old versions are listed
    $ mkdir copy && (cd "$TOP" && tar c *.md docs checks) | tar x -C copy
    $ echo 'Version 0.9.0 took 3 s.' > copy/docs/NEW.md
    $ copy/checks/documents --old-figures | grep NEW
    docs/NEW.md:1: 0.9.0
    $ copy/checks/documents --new-figures 2>&1 | head -n 1
    Compares the documents with what they are about:
    $ rm -r copy

## a page of the package links to what the package has
    $ mkdir copy && (cd "$TOP" && tar c LICENSE* *.md bench/about.md contrib/to_maildir docs cases checks examples release) | tar x -C copy
    $ echo '[a way out](contrib/to_maildir)' >> copy/README.md
    $ copy/checks/links | grep '^README.md: contrib'
    README.md: contrib/to_maildir: the package doesn't have that
    $ rm -r copy
