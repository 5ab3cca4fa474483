# Mail that the spam filter marked goes to Junk. Mail with fifteen stars is thrown away unread.
require "fileinto";

if header :contains "X-Spam-Level" "***************" {
    discard;
} elsif anyof (
    header :is ["X-Spam-Flag", "X-Spam"] "yes",
    header :matches "X-Spam-Status" "yes,*"
) {
    fileinto "Junk";
}
