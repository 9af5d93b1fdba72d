# A port that failed is cancelled by its new provider alone, and makes room for another.
after opening

let sent port attempt=1 due=100

AAAA /subscriptionVersionNewSP-Create create due=100
     200 port due=100 phase=initial
BBBB /subscriptionVersionOldSP-Create concur due=100
     200 port due=100
NPAC /clock minute=200
     200 now=200
AAAA /subscriptionVersionActivate id=1
     200 sent since=200 status=sending
NPAC /clock minute=216
     200 now=216
AAAA /subscriptionVersionNewSP-Create create due=300
     409 busy 12
BBBB /subscriptionVersionCancel id=1
     403 not_yours 11
CCCC /subscriptionVersionCancel id=1
     403 not_yours 11
CCCC /versions/1
     200 sent since=215 status=failed
AAAA /subscriptionVersionCancel id=1
     200 sent since=216 status=canceled
AAAA /subscriptionVersionActivate id=1
     409 wrong_status 13
AAAA /subscriptionVersionNewSP-Create create due=300
     200 port due=300 id=2 phase=initial since=216
