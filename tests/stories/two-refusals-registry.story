# Refusals of the registry, the clock and an acknowledgement, two at a time: the lesser one is answered.
after active-port

NPAC /clock minute=5
     200 now=5

# an unknown carrier is named, or calls; and the caller is not the administrator, the code is opened, the
# routing number is registered, there is no such version, no such download waits
AAAA /codes code=202534 spid=ZZZZ
     403 unknown_carrier 1
NPAC /codes code=202533 spid=ZZZZ
     403 unknown_carrier 1
ZZZZ /lrns lrn=2025330000
     403 unknown_carrier 1
ZZZZ /downloads/acknowledge attempt=1 id=9
     403 unknown_carrier 1
ZZZZ /downloads/acknowledge attempt=1 id=1
     403 unknown_carrier 1
ZZZZ /versions/9
     403 unknown_carrier 1

# the caller is not the administrator; and the carrier is registered, the code is opened, the clock has
# passed the minute
AAAA /carriers spid=BBBB
     403 not_admin 2
AAAA /carriers spid=NPAC
     403 not_admin 2
AAAA /codes code=202533 spid=BBBB
     403 not_admin 2
AAAA /clock minute=4
     403 not_admin 2
