# One newsletter goes into a folder, without its sender's other mail; forwarded mail goes into a folder and stays in the inbox.
require ["fileinto", "comparator-i;octet"];

if allof (
    header :comparator "i;octet" :contains "List-Id" "<weekly.lists.gardenpost.example>",
    not header :contains "Subject" "unsubscribed"
) {
    fileinto "Garden";
    stop;
}
if header :matches ["Subject", "X-Forwarded"] "Fwd: *" {
    fileinto "Forwarded";
    keep;
}
