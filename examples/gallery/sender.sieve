# Mail of one person and mail of one house go into a folder each. An address is in angle brackets, or alone.
require "fileinto";

if header :matches "From" ["chief@example.org", "*<chief@example.org>*"] {
    fileinto "Chief";
} elsif header :matches "From" ["*@supplier.example", "*@supplier.example>*"] {
    fileinto "Supplier";
}
