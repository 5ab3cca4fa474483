# encode and decode: octets as a text, and back

The texts of `foobar`, as RFC 4648 has them, and others.

## encode nothing
    $ depot encode base64
    $ depot encode base16
    $ depot encode raw

## encode raw
    $ printf foobar | depot encode raw
    foobar
    [no line break]

## encode base64
    $ printf foobar > octets
    $ depot encode base64 < octets
    Zm9vYmFy
    [no line break]

## encode base64 of one octet
    $ printf f | depot encode base64
    Zg==
    [no line break]

## encode base64 mime
    $ printf foobar | depot encode base64-mime > text
    $ printf 'Zm9vYmFy\r\n' | cmp - text

## encode base32
    $ printf foobar | depot encode base32
    MZXW6YTBOI======
    [no line break]

## encode base32hex
    $ printf foobar | depot encode base32hex
    CPNMUOJ1E8======
    [no line break]

## encode base16
    $ printf foobar | depot encode base16
    666F6F626172
    [no line break]

## encode qp
    $ printf 'caf\303\251 =\r\naaaaaaaaaaaaaaaaaaaaaaaaaaaaaaaaaaaaaaaaaaaaaaaaaaaaaaaaaaaaaaaaaaaaaaaaaaaaa ' | depot encode qp > text
    $ printf 'caf=C3=A9 =3D=0D=0Aaaaaaaaaaaaaaaaaaaaaaaaaaaaaaaaaaaaaaaaaaaaaaaaaaaaaaaaa=\r\naaaaaaaaaaaaaaaaaaaaa=20' | cmp - text

## a million octets, and back
    $ yes f | tr -d '\n' | head -c 1000000 > octets; depot encode base16 < octets > text; wc -c < text; depot decode base16 < text | cmp - octets
    2000000

## decode nothing
    $ depot decode base64
    $ depot decode base16
    $ depot decode raw

## decode raw
    $ printf foobar | depot decode raw
    foobar
    [no line break]

## decode base64
    $ printf Zm9vYmFy > text
    $ depot decode base64 < text
    foobar
    [no line break]

## decode base64 of one octet
    $ printf 'Zg==' | depot decode base64
    f
    [no line break]

## decode base64 mime
    $ printf 'Zm9v\r\nYm!Fy' | depot decode base64-mime
    foobar
    [no line break]

## decode base32
    $ printf 'MZXW6YTBOI======' | depot decode base32
    foobar
    [no line break]

## decode base32hex
    $ printf 'CPNMUOJ1E8======' | depot decode base32hex
    foobar
    [no line break]

## decode base16
    $ printf 666f6F626172 | depot decode base16
    foobar
    [no line break]

## decode qp
    $ printf 'a=3Db \t\r\nc=\r\nd=4' | depot decode qp > text
    $ printf 'a=b\r\ncd=4' | cmp - text

Texts that the encoder doesn't write.

## decode base64 no padding
    $ printf Zg | depot decode base64
    2> refused 10 NotCanonical
    [1]

## decode base64 spare bits
    $ printf 'Zh==' | depot decode base64
    2> refused 10 NotCanonical
    [1]

## decode base64 line break
    $ printf 'Zm9v\r\n' | depot decode base64
    2> refused 10 NotCanonical
    [1]

## decode base64 no symbol
    $ printf 'Zm9!' | depot decode base64
    2> refused 10 NotCanonical
    [1]

## decode base32 spare bits
    $ printf 'MZ======' | depot decode base32
    2> refused 10 NotCanonical
    [1]

## decode base32 lower case
    $ printf 'my======' | depot decode base32
    2> refused 10 NotCanonical
    [1]

## decode base32hex no padding
    $ printf CO | depot decode base32hex
    2> refused 10 NotCanonical
    [1]

## decode base16 half an octet
    $ printf 666 | depot decode base16
    2> refused 10 NotCanonical
    [1]

## decode base16 no digit
    $ printf '6G' | depot decode base16
    2> refused 10 NotCanonical
    [1]

## decode base16 blank
    $ printf '66 6F' | depot decode base16
    2> refused 10 NotCanonical
    [1]
