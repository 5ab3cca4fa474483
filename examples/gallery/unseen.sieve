# A multipart or a message without a part goes apart: its sender meant parts, but no filter can look at them.
require ["foreverypart", "mime", "variables", "fileinto"];

foreverypart {
    if header :mime :contenttype :matches "Content-Type" ["multipart/*", "message/rfc822", "message/global"] {
        set "parts" "none";
        foreverypart {
            set "parts" "some";
            break;
        }
        if string "${parts}" "none" {
            fileinto "Unseen";
            stop;
        }
    }
}
