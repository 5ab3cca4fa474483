# A mail to a help desk: each attachment with a plain name goes into the folder of its ticket. Pictures in a signature are left
# out, and a part that contains parts isn't stored.
require ["foreverypart", "mime", "variables", "vnd.depot"];

if header :matches "Subject" "*[#*]*" {
    set "ticket" "${2}";
    foreverypart {
        if allof (
            header :mime :type "Content-Disposition" "attachment",
            exists :mime "Content-Type",
            not header :mime :type "Content-Type" ["multipart", "message"],
            header :mime :param "filename" :matches "Content-Disposition" "?*"
        ) {
            store "Tickets/${ticket}/${0}";
        }
    }
}
