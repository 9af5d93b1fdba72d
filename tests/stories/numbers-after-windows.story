# A window that has ended is judged before a number's versions are told, however far the clock has jumped.
after opening

BBBB /subscriptionVersionOldSP-Create concur due=300
     200 port due=300 lrn=null phase=initial
NPAC /clock minute=119
     200 now=119
NPAC /numbers/2025331234
     200 in_force=null open=1
NPAC /clock minute=120
     200 now=120
NPAC /numbers/2025331234
     200 in_force=null open=null

let sent port due=300 id=2 subject=2025331235

AAAA /subscriptionVersionNewSP-Create create due=300 tn=2025331235
     200 sent phase=initial since=120
BBBB /subscriptionVersionOldSP-Create concur due=300 tn=2025331235
     200 sent since=120
NPAC /clock minute=300
     200 now=300
AAAA /subscriptionVersionActivate id=2
     200 sent attempt=1 since=300 status=sending
CCCC /downloads/acknowledge attempt=1 id=2
     200 sent attempt=1 since=300 status=sending
NPAC /numbers/2025331235
     200 in_force=null open=2
NPAC /clock minute=5000
     200 now=5000
NPAC /numbers/2025331235
     200 in_force=2 open=null
AAAA /downloads/acknowledge attempt=1 id=2
     200 sent attempt=1 since=315 status=partial-failure
BBBB /downloads/acknowledge attempt=1 id=2
     200 sent attempt=1 since=5000 status=active
AAAA /subscriptionVersionDisconnect id=2 release=6000
     200 sent attempt=1 release=6000 since=5000 status=disconnect-pending
NPAC /clock minute=6000
     200 now=6000
NPAC /numbers/2025331235
     200 in_force=2 open=null
CCCC /downloads/acknowledge attempt=2 id=2
     200 sent attempt=2 since=6000 status=sending
NPAC /clock minute=7000
     200 now=7000
NPAC /numbers/2025331235
     200 in_force=null open=null
CCCC /versions/2
     200 sent attempt=2 since=6015 status=old
