# Mail with a program attached goes apart; invoices are known by the document that comes with them.
# A program is known by its name, and where its name can't be read by what stands in the field.
require ["mime", "fileinto"];

if anyof (
    header :mime :anychild :param ["filename", "name"] :matches
        ["Content-Disposition", "Content-Type"] ["*.exe", "*.js", "*.scr", "*.zip"],
    header :mime :anychild :contains ["Content-Disposition", "Content-Type"] [".exe", ".js", ".scr", ".zip"]
) {
    fileinto "Suspicious";
} elsif allof (
    header :mime :anychild :contenttype "Content-Type" "application/pdf",
    header :contains "Subject" ["invoice", "Rechnung"]
) {
    fileinto "Bills";
}
