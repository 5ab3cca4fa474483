# Invoices: the mail goes into a folder, and what is attached as PDF or XML goes apart for the accounts.
# Files are known by their names, since many senders call everything application/octet-stream.
# What is itself made of parts isn't stored: each of its parts is looked at in its turn.
require ["foreverypart", "mime", "fileinto", "vnd.depot"];

if header :contains "Subject" ["invoice", "Rechnung", "facture"] {
    fileinto "Bills";
    foreverypart {
        if allof (
            exists :mime "Content-Type",
            not header :mime :type "Content-Type" ["multipart", "message"],
            header :mime :param ["filename", "name"] :matches ["Content-Disposition", "Content-Type"] ["*.pdf", "*.xml"]
        ) {
            store "Accounts";
        }
    }
}
