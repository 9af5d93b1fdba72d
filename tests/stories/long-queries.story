# A URI has at most 2,048 bytes: one of `tel:+` and 2,043 digits is answered, one of a byte more is not. So is one of 20
# bytes and a value of 2,028.
after first-port

AAAA /query raw "{\"uri\":\"tel:+" "1"*2043 "\"}"
     200 raw "{\"uri\":\"tel:+" "1"*2043 "\"}"
AAAA /query raw "{\"uri\":\"tel:+" "1"*2044 "\"}"
     400 too_long 36
AAAA /query raw "{\"uri\":\"" ";"*5000 "\"}"
     400 too_long 36
AAAA /query raw "{\"uri\":\"tel:+442079460000;a=" "x"*2028 "\"}"
     200 raw "{\"uri\":\"tel:+442079460000;a=" "x"*2028 "\"}"
AAAA /query raw "{\"uri\":\"tel:+442079460000;a=" "x"*2029 "\"}"
     400 too_long 36
