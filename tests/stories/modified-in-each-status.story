# A routing is modified where its version is active, and in no other status.
after active-port

AAAA /lrns lrn=2025440001
     200 lrn=2025440001 spid=AAAA

# a planned disconnect
NPAC /clock minute=10
     200 now=10
AAAA /subscriptionVersionDisconnect id=1 release=100
     200 active release=100 since=10 status=disconnect-pending
AAAA /subscriptionVersionModify id=1 lrn=2025440001
     409 wrong_status 13
AAAA /subscriptionVersionCancel id=1
     200 active since=10

# a partial failure, which one more acknowledgement makes whole
NPAC /clock minute=20
     200 now=20
AAAA /subscriptionVersionModify id=1 lrn=2025440001
     200 active attempt=2 since=20 status=sending
AAAA,CCCC /downloads/acknowledge attempt=2 id=1
     200 active attempt=2 since=20 status=sending
NPAC /clock minute=35
     200 now=35
AAAA /subscriptionVersionModify id=1 lrn=2025440000
     409 wrong_status 13
CCCC /versions/1
     200 active attempt=2 lrn=2025440001 since=35 status=partial-failure
BBBB /downloads/acknowledge attempt=2 id=1
     200 active attempt=2 lrn=2025440001 since=35

# what sends a delete, and what is old
AAAA /subscriptionVersionDisconnect id=1
     200 active attempt=3 lrn=2025440001 since=35 status=sending
AAAA /subscriptionVersionModify id=1 lrn=2025440000
     409 wrong_status 13
AAAA,BBBB /downloads/acknowledge attempt=3 id=1
     200 active attempt=3 lrn=2025440001 since=35 status=sending
CCCC /downloads/acknowledge attempt=3 id=1
     200 active attempt=3 lrn=2025440001 since=35 status=old
AAAA /subscriptionVersionModify id=1 lrn=2025440000
     409 wrong_status 13
