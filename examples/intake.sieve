# The intake of a ticket system. A mail that is too short to be a report, or too large to be read in the
# tracker, is thrown away; every other mail becomes a ticket.
if size :under 200 {
    discard;
} elsif size :over 10M {
    discard;
} else {
    keep;
}
