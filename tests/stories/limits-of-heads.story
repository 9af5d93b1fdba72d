# A head has at most 8,192 bytes and 64 fields: the first line, two fields and the ends of the lines make 63
# bytes with the name of a third field.

raw head "x: " "y"*8129 "\r\n" body
     200 uri=tel:+12025331234
ends input
raw head "x: " "y"*8130 "\r\n" body
     400 bad_head 45
ends bad_head

raw head "x: y\r\n"*62 body
     200 uri=tel:+12025331234
ends input
raw head "x: y\r\n"*63 body
     400 bad_head 45
ends bad_head
