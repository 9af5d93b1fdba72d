# A port that is never activated is not kept.
after opening

AAAA /subscriptionVersionNewSP-Create create due=100
     200 port due=100 phase=initial
BBBB /subscriptionVersionOldSP-Create concur due=100
     200 port due=100
NPAC /clock minute=599
     200 now=599
CCCC /versions/1
     200 port due=100
NPAC /clock minute=600
     200 now=600
CCCC /versions/1
     200 port due=100 since=600 status=canceled
