# A mail with a program goes apart, and so does one with a file whose name hides its ending. The tests look for the ending of
# a program anywhere in the field, a name in pieces or encoded, a name that is there twice, and a name with a last character
# that mail readers drop.
require ["mime", "fileinto"];

if anyof (
    header :mime :anychild :contains ["Content-Disposition", "Content-Type"] [".exe", ".js", ".scr", ".zip"],
    header :mime :anychild :contains ["Content-Disposition", "Content-Type"] ["filename*", "name*", "=?"],
    header :mime :anychild :matches ["Content-Disposition", "Content-Type"] "*name=*name=*",
    header :mime :anychild :param ["filename", "name"] :matches ["Content-Disposition", "Content-Type"]
        ["* ", "*.", "*'", "*.exe", "*.js", "*.scr", "*.zip"]
) {
    fileinto "Disguised";
}
