# Each mailing list has a folder of its own, named by its List-Id; tickets have one by their number.
require ["variables", "fileinto"];

if header :matches "List-Id" "*<*.lists.*>*" {
    set :lower :upperfirst "list" "${2}";
    fileinto "Lists/${list}";
    stop;
}
if header :matches "Subject" "*[Ticket #*]*" {
    fileinto "Tickets/${2}";
}
