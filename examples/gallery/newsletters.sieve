# Each mailing list has a folder of its own, named by the first word of its List-Id; other bulk mail shares one.
require ["variables", "fileinto"];

if header :matches "List-Id" "*<*.*>*" {
    set :lower "list" "${2}";
    fileinto "Lists/${list}";
} elsif anyof (exists "List-Unsubscribe", header :is "Precedence" ["bulk", "list"]) {
    fileinto "Lists";
}
