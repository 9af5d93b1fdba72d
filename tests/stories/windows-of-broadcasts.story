# A broadcast is sent under the first windows, and the windows are set anew while it is open: it closes when
# the first say. What its closing enters has the new ones, and so has what is sent then.
after active-port

let longer windows broadcast=100

AAAA /lrns lrn=2025440001
     200 lrn=2025440001 spid=AAAA
NPAC /clock minute=300
     200 now=300
AAAA /subscriptionVersionModify id=1 lrn=2025440001
     200 active attempt=2 since=300 status=sending
NPAC /clock minute=305
     200 now=305
NPAC /windows longer
     200 now=305 set=2
NPAC /clock minute=314
     200 now=314
CCCC /versions/1
     200 active attempt=2 since=300 status=sending
NPAC /clock minute=315
     200 now=315
CCCC /versions/1
     200 active attempt=2 since=315
AAAA /subscriptionVersionModify id=1 lrn=2025440001
     200 active attempt=3 since=315 status=sending
CCCC /downloads/acknowledge attempt=3 id=1
     200 active attempt=3 since=315 status=sending
NPAC /clock minute=414
     200 now=414
CCCC /versions/1
     200 active attempt=3 since=315 status=sending
NPAC /clock minute=415
     200 now=415
CCCC /versions/1
     200 active attempt=3 lrn=2025440001 since=415 status=partial-failure
