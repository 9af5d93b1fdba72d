# What is refused of the clock and of versions that are shown, in order.
after opening

AAAA /clock minute=7
     403 not_admin 2
ZZZZ /clock minute=7
     403 not_admin 2
AAAA /clock {"minute":"7"}
     400 bad_request 41
NPAC /clock minute=1099511627776
     400 bad_request 41
NPAC /clock minute=7 now=7
     400 bad_request 41
NPAC /clock
     405 bad_method 43
NPAC /clock minute=7
     200 now=7
AAAA /subscriptionVersionNewSP-Create create due=100
     200 port due=100 phase=initial since=7
ZZZZ /versions/1
     403 unknown_carrier 1
ZZZZ /versions/2
     403 unknown_carrier 1
AAAA /versions/2
     404 not_found 10
AAAA /versions/0
     404 not_found 10
AAAA /versions/01
     400 bad_request 41
AAAA /versions/x
     400 bad_request 41
AAAA /versions/1099511627776
     400 bad_request 41
AAAA /versions/1 {}
     405 bad_method 43
AAAA /versions/
     404 no_path 42
AAAA /versions/1/
     404 no_path 42
AAAA /versions/1?a
     404 no_path 42
