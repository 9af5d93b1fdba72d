# A planned disconnect is cancelled by its provider alone, and is not sent at the minute that was planned.
after planned-disconnect

NPAC /clock minute=350
     200 now=350
BBBB /subscriptionVersionCancel id=1
     403 not_yours 11
CCCC /subscriptionVersionCancel id=1
     403 not_yours 11
AAAA /subscriptionVersionDisconnect id=1
     409 wrong_status 13
AAAA /subscriptionVersionCancel id=1
     200 active since=350
AAAA /subscriptionVersionCancel id=1
     409 wrong_status 13
NPAC /clock minute=400
     200 now=400
CCCC /versions/1
     200 active since=350
NPAC /clock minute=1000
     200 now=1000
CCCC /versions/1
     200 active since=350
CCCC /query uri=tel:+12025331234
     200 uri=tel:+12025331234;npdi;rn=+12025440000
