# Guards, for use before other rules: our own mail that comes back is thrown away,
# and mail that is very large or was written by a machine goes apart.
require "fileinto";

if header :is "X-Loop" "desk@example.org" {
    discard;
    stop;
} elsif size :over 25M {
    fileinto "Large";
    stop;
} elsif anyof (header :matches "Auto-Submitted" "auto-*", exists "X-Autoreply") {
    fileinto "Automatic";
    stop;
}
