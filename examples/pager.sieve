# Mail for a pager: only short messages get through, and none that are almost empty.
if not allof (size :over 64, size :under 4K) {
    discard;
}
