# Attachments of more than 16 kB are stored apart, each in a folder of its name. The mail stays in the inbox as it is.
# A part that contains parts isn't stored: each of its parts is looked at instead.
require ["foreverypart", "mime", "variables", "vnd.depot"];

foreverypart {
    if allof (
        exists :mime "Content-Type",
        not header :mime :type "Content-Type" ["multipart", "message"],
        header :mime :param "filename" :matches "Content-Disposition" "?*",
        partsize :over 16K
    ) {
        store "Large/${0}";
    }
}
