# A port is sent at 400, and one carrier has acknowledged it.
after opening

let sent port attempt=1 due=100

AAAA /subscriptionVersionNewSP-Create create due=100
     200 port due=100 phase=initial
BBBB /subscriptionVersionOldSP-Create concur due=100
     200 port due=100
NPAC /clock minute=400
     200 now=400
AAAA /subscriptionVersionActivate id=1
     200 sent since=400 status=sending
AAAA /downloads/acknowledge attempt=1 id=1
     200 sent since=400 status=sending
