# The concurrence windows become shorter at 50: a port that was created before keeps those of its create,
# and one that is created then has the new ones.
after opening

let near port due=100
let shorter windows initial_concurrence=10 final_concurrence=10
let later near due=60 id=2 since=50 subject=2025331235

AAAA /subscriptionVersionNewSP-Create create due=100
     200 near phase=initial
NPAC /clock minute=50
     200 now=50
NPAC /windows shorter
     200 now=50 set=2
AAAA /subscriptionVersionNewSP-Create create due=60 tn=2025331235
     200 later phase=initial
NPAC /clock minute=59
     200 now=59
CCCC /versions/1
     200 near phase=initial
CCCC /versions/2
     200 later phase=initial
NPAC /clock minute=60
     200 now=60
CCCC /versions/1
     200 near phase=final
CCCC /versions/2
     200 later phase=final
NPAC /clock minute=69
     200 now=69
AAAA /subscriptionVersionActivate id=2
     409 not_concurred 16
NPAC /clock minute=70
     200 now=70
AAAA /subscriptionVersionActivate id=2
     200 later attempt=1 since=70 status=sending
NPAC /clock minute=119
     200 now=119
AAAA /subscriptionVersionActivate id=1
     409 not_concurred 16
NPAC /clock minute=120
     200 now=120
AAAA /subscriptionVersionActivate id=1
     200 near attempt=1 since=120 status=sending
