# A port is pending since before the windows are set anew. The other provider's create leaves its status, and
# so it is kept as long as the first windows say.
after opening

let near port due=100
let shorter windows pending_retention=100

AAAA /subscriptionVersionNewSP-Create create due=100
     200 near phase=initial
NPAC /clock minute=50
     200 now=50
NPAC /windows shorter
     200 now=50 set=2
NPAC /clock minute=55
     200 now=55
BBBB /subscriptionVersionOldSP-Create concur due=100
     200 near
NPAC /clock minute=200
     200 now=200
CCCC /versions/1
     200 near
NPAC /clock minute=599
     200 now=599
CCCC /versions/1
     200 near
NPAC /clock minute=600
     200 now=600
CCCC /versions/1
     200 near since=600 status=canceled
