# Each document of a mail is stored in a folder, wherever in the mail it is. The mail itself is kept.
require ["foreverypart", "mime", "vnd.depot"];

foreverypart {
    if header :mime :contenttype "Content-Type" "application/pdf" {
        store "Documents";
    }
}
