# A silent new provider lets the port go at its minute, however far the clock jumps over it.
after opening

BBBB /subscriptionVersionOldSP-Create concur due=300
     200 port due=300 lrn=null phase=initial
NPAC /clock minute=5
     200 now=5
NPAC /clock minute=900
     200 now=900
CCCC /versions/1
     200 port due=300 lrn=null since=120 status=canceled
