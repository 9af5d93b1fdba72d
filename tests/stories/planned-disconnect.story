# A disconnect is planned at 300 for minute 400.
after active-port

NPAC /clock minute=300
     200 now=300
AAAA /subscriptionVersionDisconnect id=1 release=400
     200 active release=400 since=300 status=disconnect-pending
