# A port waits for its due minute.
after opening

AAAA /subscriptionVersionNewSP-Create create due=100
     200 port due=100 phase=initial
BBBB /subscriptionVersionOldSP-Create concur due=100
     200 port due=100
NPAC /clock minute=99
     200 now=99
AAAA /subscriptionVersionActivate id=1
     409 before_due 17
NPAC /clock minute=100
     200 now=100
AAAA /subscriptionVersionActivate id=1
     200 port attempt=1 due=100 since=100 status=sending
