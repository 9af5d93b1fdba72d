# A silent new provider lets the port go, minute by minute.
after opening

BBBB /subscriptionVersionOldSP-Create concur due=300
     200 port due=300 lrn=null phase=initial
NPAC /clock minute=119
     200 now=119
CCCC /versions/1
     200 port due=300 lrn=null phase=final
NPAC /clock minute=120
     200 now=120
CCCC /versions/1
     200 port due=300 lrn=null since=120 status=canceled
