# A help desk: each ticket has a folder by its number, from the subject, or else from the mail that is answered.
require ["variables", "fileinto"];

if header :matches "Subject" "*[desk #*]*" {
    set "number" "${2}";
} elsif header :matches ["In-Reply-To", "References"] "*<desk-*.*@example.org>*" {
    set "number" "${2}";
} else {
    set "number" "new";
}
fileinto "Tickets/${number}";
