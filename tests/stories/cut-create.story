# A create without its last byte changes nothing: the next create makes the first version.
after opening

raw "POST /subscriptionVersionNewSP-Create HTTP/1.1\r\nx-spid: AAAA\r\ncontent-length: 74\r\n\r\n" "{\"due\":100,\"lrn\":\"2025440000\",\"new\":\"AAAA\",\"old\":\"BBBB\",\"tn\":\"2025331234\""
     400 cut_body 46
ends cut_body

AAAA /subscriptionVersionNewSP-Create create due=100
     200 port due=100 phase=initial
