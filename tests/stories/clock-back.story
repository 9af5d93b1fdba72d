# The clock does not go back.
after opening

AAAA /subscriptionVersionNewSP-Create create due=100
     200 port due=100 phase=initial
NPAC /clock minute=500
     200 now=500
NPAC /clock minute=499
     409 clock_back 27
NPAC /clock minute=500
     200 now=500
CCCC /versions/1
     200 port due=100 phase=ended
AAAA /subscriptionVersionActivate id=1
     200 port attempt=1 due=100 since=500 status=sending
