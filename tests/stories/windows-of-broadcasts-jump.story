# A broadcast is sent under the first windows, and the windows are set anew while it is open: one jump goes
# over its end, which is when the first say.
after active-port

let longer windows broadcast=100

AAAA /lrns lrn=2025440001
     200 lrn=2025440001 spid=AAAA
NPAC /clock minute=300
     200 now=300
AAAA /subscriptionVersionModify id=1 lrn=2025440001
     200 active attempt=2 since=300 status=sending
NPAC /clock minute=305
     200 now=305
NPAC /windows longer
     200 now=305 set=2
NPAC /clock minute=400
     200 now=400
CCCC /versions/1
     200 active attempt=2 since=315
AAAA,BBBB,CCCC /downloads/10
     200 downloads=[]
