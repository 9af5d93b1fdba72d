# What is refused of the question for a number's versions: paths, methods, texts that are no telephone
# number, bodies, and callers that are not registered.
after opening

NPAC /numbers/2025331
     400 bad_request 41
NPAC /numbers/1025331234
     400 bad_request 41
NPAC /numbers/2021331234
     400 bad_request 41
NPAC /numbers/20253312345
     400 bad_request 41
NPAC /numbers/202533123x
     400 bad_request 41
NPAC /numbers/+2025331234
     400 bad_request 41
NPAC /numbers/2025331234 {}
     405 bad_method 43
NPAC /numbers/x {}
     405 bad_method 43
raw "GET /numbers/2025331234 HTTP/1.1\r\nx-spid: NPAC\r\ncontent-length: 2\r\n\r\n{}"
     400 bad_request 41
raw "GET /numbers/2025331234 HTTP/1.1\r\nx-spid: NPAC\r\ncontent-length: 0\r\n\r\n"
     200 in_force=null open=null
raw "GET /numbers/2025331234 HTTP/1.1\r\n\r\n"
     400 bad_request 41
raw "PUT /numbers/2025331234 HTTP/1.1\r\nx-spid: NPAC\r\n\r\n"
     405 bad_method 43
ZZZZ /numbers/2025331234
     403 unknown_carrier 1
ZZZZ /numbers/2025331
     400 bad_request 41
NPAC /numbers
     404 no_path 42
NPAC /numbers/
     404 no_path 42
NPAC /numbers/2025331234/
     404 no_path 42
NPAC /numbers/x/y
     404 no_path 42
NPAC /numbers/2025331234?x
     404 no_path 42
NPAC /numbers/x/y {}
     404 no_path 42
