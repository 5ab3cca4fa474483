# Reports on our mail that wasn't delivered: those about a failure and those about a delay go into a folder each.
require ["foreverypart", "mime", "fileinto", "vnd.depot"];

if header :mime :param "report-type" "Content-Type" "delivery-status" {
    foreverypart {
        if allof (
            header :mime :contenttype "Content-Type" "message/delivery-status",
            not partbody :contains "Action: failed"
        ) {
            fileinto "Bounces/delayed";
            stop;
        }
    }
    fileinto "Bounces/failed";
}
