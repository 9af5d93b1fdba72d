# Empty lines before and behind messages are dropped, as long as they are fewer than a head has bytes.

raw head body
     200 uri=tel:+12025331234
ends input
raw head body "\n"
     200 uri=tel:+12025331234
ends input
raw head body "\n"*8191
     200 uri=tel:+12025331234
ends input
raw "\r\n\n" head body "\r\n\r\n"
     200 uri=tel:+12025331234
ends input

raw head body "\n"*8192
     200 uri=tel:+12025331234
     400 bad_head 45
ends bad_head
