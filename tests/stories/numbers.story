# A number's versions are found by the number: none, the open one, the one in force, and both.
after opening

NPAC /numbers/2025331234
     200 in_force=null open=null
AAAA /subscriptionVersionNewSP-Create create
     200 port phase=initial
BBBB /numbers/2025331234
     200 in_force=null open=1
BBBB /subscriptionVersionOldSP-Create concur
     200 port
AAAA /subscriptionVersionActivate id=1
     200 port attempt=1 status=sending
CCCC /numbers/2025331234
     200 in_force=null open=1
AAAA /downloads/acknowledge attempt=1 id=1
     200 port attempt=1 status=sending
BBBB /downloads/acknowledge attempt=1 id=1
     200 port attempt=1 status=sending
CCCC /downloads/acknowledge attempt=1 id=1
     200 port attempt=1 status=active
NPAC /numbers/2025331234
     200 in_force=1 open=null
CCCC /subscriptionVersionNewSP-Create due=100 lrn=2025550000 new=CCCC old=AAAA tn=2025331234
     200 port due=100 id=2 lrn=2025550000 new=CCCC old=AAAA phase=initial
AAAA /numbers/2025331234
     200 in_force=1 open=2
NPAC /numbers/2025331235
     200 in_force=null open=null
NPAC /numbers/2025341234
     200 in_force=null open=null
CCCC /subscriptionVersionCancel id=2
     200 port due=100 id=2 lrn=2025550000 new=CCCC old=AAAA status=canceled
NPAC /numbers/2025331234
     200 in_force=1 open=null
AAAA /subscriptionVersionDisconnect id=1 release=100
     200 port attempt=1 release=100 status=disconnect-pending
NPAC /numbers/2025331234
     200 in_force=1 open=null
