# With one create there is nobody to ask: the provider who made it cancels the port at once, and the other
# one may not.
after opening

let second port due=300 id=2 lrn=null
let third port due=300 id=3 lrn=null status=conflict
let fourth port due=300 id=4

AAAA /subscriptionVersionNewSP-Create create due=300
     200 port due=300 phase=initial
BBBB /subscriptionVersionCancel id=1
     403 not_yours 11
AAAA /subscriptionVersionCancel id=1
     200 port due=300 status=canceled
BBBB /subscriptionVersionOldSP-Create concur due=300
     200 second phase=initial
NPAC /clock minute=7
     200 now=7
AAAA /subscriptionVersionCancel id=2
     403 not_yours 11
BBBB /subscriptionVersionCancel id=2
     200 second since=7 status=canceled

BBBB /subscriptionVersionOldSP-Create concur authorized=false due=300
     200 third since=7
NPAC /clock minute=8
     200 now=8
AAAA /subscriptionVersionCancel id=3
     403 not_yours 11
BBBB /subscriptionVersionCancel id=3
     200 third since=8 status=canceled
AAAA /subscriptionVersionNewSP-Create create due=300
     200 fourth phase=initial since=8
BBBB /subscriptionVersionConflict id=4
     200 fourth since=8 status=conflict
NPAC /clock minute=9
     200 now=9
BBBB /subscriptionVersionCancel id=4
     403 not_yours 11
AAAA /subscriptionVersionCancel id=4
     200 fourth since=9 status=canceled
