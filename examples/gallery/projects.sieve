# Mail of a project goes into its folder: its text begins with the project's name in square brackets.
require ["foreverypart", "mime", "variables", "vnd.depot", "fileinto"];

foreverypart {
    if anyof (
        header :mime :contenttype "Content-Type" "text/plain",
        not exists :mime "Content-Type"
    ) {
        take :first 200 "text";
        if string :matches "${text}" "[*]*" {
            fileinto "Projects/${1}";
        }
        break;
    }
}
