# A second port is created beside the first one, which is in force, and sent at 200.
after active-port

let onward port due=100 id=2 lrn=2025550000 new=CCCC old=AAAA

CCCC /subscriptionVersionNewSP-Create due=100 lrn=2025550000 new=CCCC old=AAAA tn=2025331234
     200 onward phase=initial
AAAA /subscriptionVersionOldSP-Create concur due=100 new=CCCC old=AAAA
     200 onward
NPAC /clock minute=200
     200 now=200
CCCC /subscriptionVersionActivate id=2
     200 onward attempt=1 since=200 status=sending
