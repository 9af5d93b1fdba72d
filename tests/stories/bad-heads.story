# Heads are refused by their form, and nothing more is read.

raw "POST /query HTTP/1.1\r\ncontent-length: 0\r\ncontent-length: 0\r\n\r\n"
     400 bad_head 45
ends bad_head
raw "POST /query HTTP/1.1\r\ntransfer-encoding: chunked\r\n\r\n"
     400 bad_head 45
ends bad_head
raw "POST /query HTTP/1.1\r\ntransfer-encoding:\r\n\r\n"
     400 bad_head 45
ends bad_head
raw "POST /query HTTP/1.1\r\nno colon\r\n\r\n"
     400 bad_head 45
ends bad_head
raw "POST /query HTTP/1.1\r\ncontent-length: -1\r\n\r\n"
     400 bad_head 45
ends bad_head
raw "POST /query HTTP/1.1\r\ncontent-length: 00000000000000000001\r\n\r\n"
     400 bad_head 45
ends bad_head
raw "POST /query HTTP/1.1\r\ncontent-length:\r\n\r\n"
     400 bad_head 45
ends bad_head
raw "POST /query\r\n\r\n"
     400 bad_head 45
ends bad_head

# The input ends in a head.
raw "POST /query HTTP/1.1\r\n"
     400 bad_head 45
ends bad_head
raw "\r"
     400 bad_head 45
ends bad_head
raw "{}"
     400 bad_head 45
ends bad_head
