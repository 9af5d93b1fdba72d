# How near to its due minute a conflict may be put is what the present windows say; how long the new provider
# then waits, those of the minute of the conflict.
after created-for-100

let stricter windows conflict_restriction=50 conflict_resolution=10
let milder windows conflict_restriction=30 conflict_resolution=10

NPAC /clock minute=60
     200 now=60
NPAC /windows stricter
     200 now=60 set=2
BBBB /subscriptionVersionConflict id=1
     409 too_late 19
NPAC /windows windows
     200 now=60 set=3
BBBB /subscriptionVersionConflict id=1
     200 near since=60 status=conflict
NPAC /windows milder
     200 now=60 set=4
NPAC /clock minute=70
     200 now=70
AAAA /subscriptionVersionRemoveFromConflict id=1
     409 too_early 20
NPAC /clock minute=179
     200 now=179
AAAA /subscriptionVersionRemoveFromConflict id=1
     409 too_early 20
NPAC /clock minute=180
     200 now=180
AAAA /subscriptionVersionRemoveFromConflict id=1
     200 near since=180
