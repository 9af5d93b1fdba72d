# Each refusal names the first that holds, and leaves everything as it was: the second port goes on.
after first-port

ZZZZ /query uri=tel:+12025331234
     403 unknown_carrier 1
ZZZZ /query uri=x
     403 unknown_carrier 1
NPAC /lrns lrn=2025440001
     403 unknown_carrier 1
AAAA /codes code=202534 spid=ZZZZ
     403 unknown_carrier 1
NPAC /codes code=202534 spid=NPAC
     403 unknown_carrier 1
ZZZZ /subscriptionVersionActivate id=1
     403 unknown_carrier 1
ZZZZ /downloads/acknowledge attempt=1 id=9
     403 unknown_carrier 1
AAAA /carriers spid=CCCC
     403 not_admin 2
AAAA /codes code=202533 spid=BBBB
     403 not_admin 2
AAAA /subscriptionVersionNewSP-Create create lrn=2025330000 tn=2025341234
     404 unknown_code 3
NPAC /carriers spid=AAAA
     409 carrier_taken 4
NPAC /carriers spid=NPAC
     409 carrier_taken 4
NPAC /codes code=202533 spid=AAAA
     409 code_taken 5
AAAA /lrns lrn=2025330000
     409 lrn_taken 6
AAAA /subscriptionVersionNewSP-Create create lrn=2025330000 old=AAAA tn=2025331235
     409 bad_lrn 7
BBBB /subscriptionVersionNewSP-Create create lrn=2025330000 new=BBBB
     409 wrong_old 9
BBBB /subscriptionVersionNewSP-Create create lrn=2025330000 new=BBBB tn=2025331235
     409 wrong_old 9
AAAA /subscriptionVersionActivate id=2
     404 not_found 10
AAAA /subscriptionVersionActivate id=0
     404 not_found 10
AAAA /downloads/acknowledge attempt=1 id=0
     404 not_found 10
AAAA /subscriptionVersionOldSP-Create concur tn=2025331235
     403 not_yours 11
BBBB /subscriptionVersionActivate id=1
     403 not_yours 11
AAAA /subscriptionVersionActivate id=1
     409 wrong_status 13
AAAA /downloads/acknowledge attempt=1 id=1
     404 not_queued 25
AAAA /downloads/acknowledge attempt=2 id=1
     404 not_queued 25
AAAA /query uri=sip:a
     400 not_tel 31
AAAA /query uri=tel:+abc
     400 bad_number 32

then second-port
