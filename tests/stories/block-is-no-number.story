# The version of a block is shown and acknowledged by its id; the commands on versions are for numbers, and do not find it.
after held-block

CCCC /subscriptionVersionActivate id=3
     404 not_found 10
BBBB /subscriptionVersionConflict id=3
     404 not_found 10
BBBB,CCCC /subscriptionVersionRemoveFromConflict id=3
     404 not_found 10
BBBB,CCCC /subscriptionVersionCancel id=3
     404 not_found 10
BBBB /subscriptionVersionOldSP-CancellationAcknowledge id=3
     404 not_found 10
CCCC /subscriptionVersionNewSP-CancellationAcknowledge id=3
     404 not_found 10
CCCC /subscriptionVersionDisconnect id=3
     404 not_found 10
CCCC /subscriptionVersionDisconnect id=3 release=100
     404 not_found 10
CCCC /subscriptionVersionDisconnect id=3 release=1
     404 not_found 10
ZZZZ,NPAC /subscriptionVersionDisconnect id=3
     403 unknown_carrier 1
AAAA,NPAC /versions/3
     200 held since=23 status=active
ZZZZ /versions/3
     403 unknown_carrier 1
AAAA /downloads/acknowledge attempt=1 id=3
     404 not_queued 25
NPAC /numbers/2025337003
     200 in_force=null open=null
NPAC /numbers/2025337001
     200 in_force=1 open=null
NPAC /numbers/2025337
     400 bad_request 41
