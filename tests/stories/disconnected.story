# A number is given back at 10, and two of its three carriers acknowledge the delete at 11.
after active-port

NPAC /clock minute=10
     200 now=10
AAAA /subscriptionVersionDisconnect id=1
     200 active attempt=2 since=10 status=sending
NPAC /clock minute=11
     200 now=11
AAAA /downloads/acknowledge attempt=2 id=1
     200 active attempt=2 since=10 status=sending
CCCC /downloads/acknowledge attempt=2 id=1
     200 active attempt=2 since=10 status=sending
CCCC /query uri=tel:+12025331234
     200 uri=tel:+12025331234;npdi;rn=+12025440000
