# At the release minute there is nothing left to cancel, however far the clock jumps to it.
after planned-disconnect

NPAC /clock minute=400
     200 now=400
AAAA /subscriptionVersionCancel id=1
     409 wrong_status 13
CCCC /versions/1
     200 active attempt=2 since=400 status=sending
