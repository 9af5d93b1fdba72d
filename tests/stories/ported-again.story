# A number that is given back takes no create before its delete has closed, minute by minute, and is ported
# again then.
after disconnected

NPAC /clock minute=24
     200 now=24
AAAA /subscriptionVersionNewSP-Create create due=30
     409 wrong_old 9
AAAA /subscriptionVersionOldSP-Create concur due=30 new=BBBB old=AAAA
     409 busy 12
AAAA /subscriptionVersionDisconnect id=1
     409 wrong_status 13
CCCC /versions/1
     200 active attempt=2 since=10 status=sending
NPAC /clock minute=25
     200 now=25
CCCC /versions/1
     200 active attempt=2 since=25 status=old
CCCC /query uri=tel:+12025331234
     200 uri=tel:+12025331234;npdi

then ported-again-jump
