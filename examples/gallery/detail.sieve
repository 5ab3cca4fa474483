# Plus-addressing: mail to ann+shop@example.org goes into the folder shop. Delivered-To counts before To and Cc.
require ["variables", "fileinto"];

if header :matches ["Delivered-To", "To", "Cc"] "ann+*@example.org" {
    set :lower "detail" "${1}";
} elsif header :matches ["To", "Cc"] "*<ann+*@example.org>*" {
    set :lower "detail" "${2}";
}
# a text with another @ in it was taken out of several addresses
if not string :matches "${detail}" ["", "*@*"] {
    fileinto "${detail}";
}
