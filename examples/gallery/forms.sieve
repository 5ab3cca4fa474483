# A form that is attached as form.txt names its ticket, as in `Ticket [4711]`; the mail and what is attached go there.
# A part that contains parts isn't stored.
require ["foreverypart", "mime", "variables", "vnd.depot", "fileinto"];

foreverypart {
    if header :mime :param "filename" "Content-Disposition" "form.txt" {
        take "form";
        if string :matches "${form}" "*Ticket [*]*" {
            set "ticket" "${2}";
        }
    }
}
if not string "${ticket}" "" {
    fileinto "Tickets/${ticket}";
    foreverypart {
        if allof (
            header :mime :type "Content-Disposition" "attachment",
            exists :mime "Content-Type",
            not header :mime :type "Content-Type" ["multipart", "message"]
        ) {
            store "Tickets/${ticket}";
        }
    }
}
