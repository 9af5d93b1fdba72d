# A port is in force at AAAA from the first minute on: every carrier has acknowledged it.
after opening

let active port attempt=1 status=active

AAAA /subscriptionVersionNewSP-Create create
     200 port phase=initial
BBBB /subscriptionVersionOldSP-Create concur
     200 port
AAAA /subscriptionVersionActivate id=1
     200 port attempt=1 status=sending
AAAA /downloads/acknowledge attempt=1 id=1
     200 port attempt=1 status=sending
BBBB /downloads/acknowledge attempt=1 id=1
     200 port attempt=1 status=sending
CCCC /downloads/acknowledge attempt=1 id=1
     200 active
