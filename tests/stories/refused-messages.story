# Messages are refused in order: their length, their body, their path, their method, their form, their caller.

raw "POST /query HTTP/1.1\r\ncontent-length: 1048577\r\n\r\n"
     413 too_large 44
ends too_large
raw "POST /query HTTP/1.1\r\ncontent-length: 9999999999999999999\r\n\r\n"
     413 too_large 44
ends too_large
# the length is judged before the body has come
raw "POST /query HTTP/1.1\r\ncontent-length: 1048577\r\n\r\n{}"
     413 too_large 44
ends too_large
raw "POST /nowhere HTTP/1.1\r\ncontent-length: 2\r\n\r\n{"
     400 cut_body 46
ends cut_body

raw "POST /nowhere HTTP/1.1\r\n\r\n"
     404 no_path 42
raw "POST /query?x HTTP/1.1\r\n\r\n"
     404 no_path 42
raw "POST /query/ HTTP/1.1\r\n\r\n"
     404 no_path 42
raw "POST //query HTTP/1.1\r\n\r\n"
     404 no_path 42
raw "GET /versions/ HTTP/1.1\r\n\r\n"
     404 no_path 42
raw "GET /versions/1/2 HTTP/1.1\r\n\r\n"
     404 no_path 42
raw "GET /versions/1?2 HTTP/1.1\r\n\r\n"
     404 no_path 42
raw "GET /clock HTTP/1.1\r\n\r\n"
     405 bad_method 43
raw "POST /versions/1 HTTP/1.1\r\n\r\n"
     405 bad_method 43
raw "POST /clock HTTP/1.1\r\n\r\n"
     400 bad_request 41
raw "GET /versions/1 HTTP/1.1\r\n\r\n"
     400 bad_request 41
raw "GET /versions/01 HTTP/1.1\r\nx-spid: AAAA\r\n\r\n"
     400 bad_request 41
raw "GET /versions/1099511627776 HTTP/1.1\r\nx-spid: AAAA\r\n\r\n"
     400 bad_request 41
raw "POST /clock HTTP/1.1\r\nx-spid: AAAA\r\ncontent-length: 14\r\n\r\n{\"minute\":120}"
     403 not_admin 2
raw "GET /nowhere HTTP/1.1\r\n\r\n"
     404 no_path 42
raw "PUT /query HTTP/1.1\r\n\r\n"
     405 bad_method 43
raw "GET /carriers HTTP/1.1\r\n\r\n"
     405 bad_method 43
raw "POST /query HTTP/1.1\r\n\r\n"
     400 bad_request 41
raw "POST /query HTTP/1.1\r\nx-spid: AAAA\r\nX-SPID: AAAA\r\n\r\n"
     400 bad_request 41
raw "POST /query HTTP/1.1\r\nx-spid: aaaa\r\n\r\n"
     400 bad_request 41
