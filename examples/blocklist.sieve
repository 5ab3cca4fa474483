# Attachments are stored apart, but not those on a list of digests: here a well-known picture, and empty files.
# A part that contains parts isn't stored: each of its parts is looked at instead.
require ["foreverypart", "mime", "vnd.depot"];

foreverypart {
    if allof (
        header :mime :type "Content-Disposition" "attachment",
        exists :mime "Content-Type",
        not header :mime :type "Content-Type" ["multipart", "message"],
        not partdigest [
            "bfd42943982d868975538aa75d46a6eefdb36038b2cb9fda604b7904a81629ac",
            "e3b0c44298fc1c149afbf4c8996fb92427ae41e4649b934ca495991b7852b855"
        ]
    ) {
        store "Attachments";
    }
}
