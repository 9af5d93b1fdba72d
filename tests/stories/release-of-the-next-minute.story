# A release in the next minute waits for it. The greatest minute is one too.
after active-port

NPAC /clock minute=300
     200 now=300
AAAA /subscriptionVersionDisconnect id=1 release=1099511627775
     200 active release=1099511627775 since=300 status=disconnect-pending
AAAA /subscriptionVersionCancel id=1
     200 active since=300
AAAA /subscriptionVersionDisconnect id=1 release=301
     200 active release=301 since=300 status=disconnect-pending
NPAC /clock minute=301
     200 now=301
AAAA /downloads/acknowledge attempt=2 id=1
     200 active attempt=2 since=301 status=sending
