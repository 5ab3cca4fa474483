# Sorts a mailbox: bulk mail by its list, bills and keys into folders of their own.
require "fileinto";

if exists "List-Id" {
    fileinto "Lists";
} elsif anyof (
    header :contains "Subject" ["invoice", "Rechnung", "bill"],
    header :matches "From" "*rechnung@*"
) {
    fileinto "Bills";
} elsif header :is "Subject" "Keys for the workshop" {
    fileinto "Workshop";
}
