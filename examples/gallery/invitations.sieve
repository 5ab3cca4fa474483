# Invitations are stored apart for the calendar: requests, answers and cancellations have a folder each.
require ["foreverypart", "mime", "variables", "vnd.depot"];

foreverypart {
    if allof (
        not header :mime :type "Content-Type" ["multipart", "message"],
        header :mime :contenttype "Content-Type" "text/calendar",
        header :mime :param "method" :matches "Content-Type" "?*"
    ) {
        set :lower "method" "${0}";
        store "Calendar/${method}";
    }
}
