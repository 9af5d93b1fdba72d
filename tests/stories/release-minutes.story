# A release before now is refused, and one at now does not wait.
after active-port

NPAC /clock minute=300
     200 now=300
AAAA /subscriptionVersionDisconnect id=1 release=0
     409 due_past 14
AAAA /subscriptionVersionDisconnect id=1 release=299
     409 due_past 14
CCCC /versions/1
     200 active
AAAA /subscriptionVersionDisconnect id=1 release=300
     200 active attempt=2 since=300 status=sending
AAAA /downloads/acknowledge attempt=2 id=1
     200 active attempt=2 since=300 status=sending
