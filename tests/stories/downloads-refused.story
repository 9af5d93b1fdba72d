# What is refused of the question for a carrier's downloads: paths, methods, texts that are no number from 1 to 100,
# bodies, and callers that are no carriers.
after opening

AAAA /downloads/1
     200 downloads=[]
AAAA /downloads/100
     200 downloads=[]
AAAA /downloads/0
     400 bad_request 41
AAAA /downloads/101
     400 bad_request 41
AAAA /downloads/01
     400 bad_request 41
AAAA /downloads/00
     400 bad_request 41
AAAA /downloads/x
     400 bad_request 41
AAAA /downloads/1x
     400 bad_request 41
AAAA /downloads/+1
     400 bad_request 41
AAAA /downloads/-1
     400 bad_request 41
AAAA /downloads/1.0
     400 bad_request 41
AAAA /downloads/1099511627775
     400 bad_request 41
AAAA /downloads/1099511627776
     400 bad_request 41
AAAA /downloads/18446744073709551617
     400 bad_request 41
AAAA /downloads/5 {}
     405 bad_method 43
AAAA /downloads/0 {}
     405 bad_method 43
AAAA /downloads/acknowledge
     405 bad_method 43
raw "GET /downloads/5 HTTP/1.1\r\nx-spid: AAAA\r\ncontent-length: 2\r\n\r\n{}"
     400 bad_request 41
raw "GET /downloads/5 HTTP/1.1\r\nx-spid: AAAA\r\ncontent-length: 0\r\n\r\n"
     200 downloads=[]
raw "GET /downloads/5 HTTP/1.1\r\n\r\n"
     400 bad_request 41
raw "PUT /downloads/5 HTTP/1.1\r\nx-spid: AAAA\r\n\r\n"
     405 bad_method 43
ZZZZ /downloads/5
     403 unknown_carrier 1
NPAC /downloads/5
     403 unknown_carrier 1
ZZZZ /downloads/0
     400 bad_request 41
ZZZZ /downloads/101
     400 bad_request 41
AAAA /downloads
     404 no_path 42
AAAA /downloads/
     404 no_path 42
AAAA /downloads/5/
     404 no_path 42
AAAA /downloads/5/6
     404 no_path 42
AAAA /downloads/5?x
     404 no_path 42
AAAA /downloads/5/6 {}
     404 no_path 42
