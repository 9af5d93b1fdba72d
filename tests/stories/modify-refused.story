# A modify by a carrier that has not the port, one to another carrier's routing number, and one of no
# version.
after active-port

AAAA /lrns lrn=2025440001
     200 lrn=2025440001 spid=AAAA
NPAC /clock minute=300
     200 now=300
AAAA /subscriptionVersionModify id=1 lrn=2025330000
     409 bad_lrn 7
BBBB /subscriptionVersionModify id=1 lrn=2025440001
     403 not_yours 11
BBBB /subscriptionVersionModify id=1 lrn=2025330000
     409 bad_lrn 7
AAAA /subscriptionVersionModify id=2 lrn=2025440001
     404 not_found 10
AAAA /subscriptionVersionModify id=1
     400 bad_request 41
CCCC /versions/1
     200 active
