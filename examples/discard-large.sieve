# A mailbox with little room: messages of more than 50,000 bytes are thrown away.
if size :over 50000 {
    discard;
}
