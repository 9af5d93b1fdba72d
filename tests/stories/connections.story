# A connection ends after the message that asks for it, and after one of HTTP/1.0; of two queries the second
# is then not answered.

raw head "connection: close\r\n" body head "connection: close\r\n" body
     200 uri=tel:+12025331234
ends closed
raw head "Connection: \tCLOSE \r\n" body head "Connection: \tCLOSE \r\n" body
     200 uri=tel:+12025331234
ends closed
raw head "connection: x\r\nconnection: close\r\n" body head body
     200 uri=tel:+12025331234
ends closed
raw "POST /query HTTP/1.0\r\nx-spid: NPAC\r\ncontent-length: 26\r\n" body head body
     200 uri=tel:+12025331234
ends closed

raw head "connection: keep-alive\r\n" body head "connection: keep-alive\r\n" body
     200 uri=tel:+12025331234
     200 uri=tel:+12025331234
ends input
raw head "connection: close, x\r\n" body head "connection: close, x\r\n" body
     200 uri=tel:+12025331234
     200 uri=tel:+12025331234
ends input
raw head "expect: 100-continue\r\n" body head "expect: 100-continue\r\n" body
     200 uri=tel:+12025331234
     200 uri=tel:+12025331234
ends input
