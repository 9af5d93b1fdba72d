# A message that is cut changes nothing: the first carrier's registration lacks its last byte, and then the
# first port is told whole.

raw "POST /carriers HTTP/1.1\r\nx-spid: NPAC\r\ncontent-length: 15\r\n\r\n{\"spid\":\"AAAA\""
     400 cut_body 46
ends cut_body

then first-port
