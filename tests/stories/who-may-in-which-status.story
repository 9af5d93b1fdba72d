# A port goes through its statuses. In each of them a stranger cancels nothing, acknowledges no cancellation
# and disconnects nothing, and the providers are told what is wrong.
after opening

let walk port due=100

# pending
AAAA /subscriptionVersionNewSP-Create create due=100
     200 walk phase=initial
BBBB /subscriptionVersionOldSP-Create concur due=100
     200 walk
CCCC /subscriptionVersionCancel id=1
     403 not_yours 11
CCCC /subscriptionVersionOldSP-CancellationAcknowledge id=1
     403 not_yours 11
CCCC /subscriptionVersionDisconnect id=1
     403 not_yours 11
BBBB /subscriptionVersionDisconnect id=1
     403 not_yours 11
AAAA /subscriptionVersionDisconnect id=1
     409 busy 12
AAAA /subscriptionVersionNewSP-CancellationAcknowledge id=1
     409 wrong_status 13

# conflict
BBBB /subscriptionVersionConflict id=1
     200 walk status=conflict
CCCC /subscriptionVersionCancel id=1
     403 not_yours 11
CCCC /subscriptionVersionNewSP-CancellationAcknowledge id=1
     403 not_yours 11
AAAA /subscriptionVersionDisconnect id=1
     409 busy 12
AAAA /subscriptionVersionNewSP-CancellationAcknowledge id=1
     409 wrong_status 13
BBBB /subscriptionVersionOldSP-CancellationAcknowledge id=1
     409 wrong_status 13
AAAA /subscriptionVersionActivate id=1
     409 wrong_status 13

# cancel-pending
BBBB /subscriptionVersionCancel id=1
     200 walk phase=initial status=cancel-pending
CCCC /subscriptionVersionCancel id=1
     403 not_yours 11
CCCC /subscriptionVersionOldSP-CancellationAcknowledge id=1
     403 not_yours 11
AAAA /subscriptionVersionCancel id=1
     409 wrong_status 13
BBBB /subscriptionVersionCancel id=1
     409 wrong_status 13
AAAA /subscriptionVersionDisconnect id=1
     409 busy 12
AAAA /subscriptionVersionActivate id=1
     409 wrong_status 13
AAAA /subscriptionVersionNewSP-Create create due=100
     409 busy 12

# pending again, behind a conflict of the windows
NPAC /clock minute=120
     200 now=120
BBBB /subscriptionVersionRemoveFromConflict id=1
     200 walk since=120

# sending a create
AAAA /subscriptionVersionActivate id=1
     200 walk attempt=1 since=120 status=sending
CCCC /subscriptionVersionCancel id=1
     403 not_yours 11
CCCC /subscriptionVersionNewSP-CancellationAcknowledge id=1
     403 not_yours 11
AAAA /subscriptionVersionCancel id=1
     409 wrong_status 13
BBBB /subscriptionVersionCancel id=1
     409 wrong_status 13
AAAA /subscriptionVersionDisconnect id=1
     409 busy 12
BBBB /subscriptionVersionConflict id=1
     409 wrong_status 13
AAAA /subscriptionVersionActivate id=1
     409 wrong_status 13

# failed
NPAC /clock minute=135
     200 now=135
CCCC /subscriptionVersionCancel id=1
     403 not_yours 11
BBBB /subscriptionVersionCancel id=1
     403 not_yours 11
CCCC /subscriptionVersionOldSP-CancellationAcknowledge id=1
     403 not_yours 11
AAAA /subscriptionVersionNewSP-CancellationAcknowledge id=1
     409 wrong_status 13
AAAA /subscriptionVersionDisconnect id=1
     409 busy 12
BBBB /subscriptionVersionConflict id=1
     409 wrong_status 13
AAAA /subscriptionVersionActivate id=1
     200 walk attempt=2 since=135 status=sending
CCCC /downloads/acknowledge attempt=2 id=1
     200 walk attempt=2 since=135 status=sending

# partial-failure
NPAC /clock minute=150
     200 now=150
CCCC /subscriptionVersionCancel id=1
     403 not_yours 11
AAAA /subscriptionVersionCancel id=1
     409 wrong_status 13
BBBB /subscriptionVersionCancel id=1
     409 wrong_status 13
CCCC /subscriptionVersionDisconnect id=1
     403 not_yours 11
AAAA /subscriptionVersionDisconnect id=1
     409 wrong_status 13
AAAA /subscriptionVersionOldSP-Create concur due=200 new=CCCC old=AAAA
     409 busy 12
AAAA /downloads/acknowledge attempt=2 id=1
     200 walk attempt=2 since=150 status=partial-failure

# active
NPAC /clock minute=160
     200 now=160
BBBB /downloads/acknowledge attempt=2 id=1
     200 walk attempt=2 since=160 status=active
CCCC /subscriptionVersionCancel id=1
     403 not_yours 11
AAAA /subscriptionVersionCancel id=1
     409 wrong_status 13
BBBB /subscriptionVersionCancel id=1
     409 wrong_status 13
CCCC /subscriptionVersionNewSP-CancellationAcknowledge id=1
     403 not_yours 11
BBBB /subscriptionVersionOldSP-CancellationAcknowledge id=1
     409 wrong_status 13
BBBB /subscriptionVersionConflict id=1
     409 wrong_status 13
BBBB /subscriptionVersionRemoveFromConflict id=1
     409 wrong_status 13
BBBB /subscriptionVersionDisconnect id=1
     403 not_yours 11

# disconnect-pending
AAAA /subscriptionVersionDisconnect id=1 release=200
     200 walk attempt=2 release=200 since=160 status=disconnect-pending
CCCC /subscriptionVersionCancel id=1
     403 not_yours 11
BBBB /subscriptionVersionCancel id=1
     403 not_yours 11
AAAA /subscriptionVersionDisconnect id=1 release=300
     409 wrong_status 13
AAAA /subscriptionVersionNewSP-CancellationAcknowledge id=1
     409 wrong_status 13
AAAA /subscriptionVersionOldSP-Create concur due=300 new=CCCC old=AAAA
     409 busy 12

# sending a delete
NPAC /clock minute=200
     200 now=200
CCCC /subscriptionVersionCancel id=1
     403 not_yours 11
AAAA /subscriptionVersionCancel id=1
     409 wrong_status 13
BBBB /subscriptionVersionCancel id=1
     409 wrong_status 13
AAAA /subscriptionVersionDisconnect id=1
     409 wrong_status 13
AAAA /subscriptionVersionActivate id=1
     409 wrong_status 13
CCCC /downloads/acknowledge attempt=3 id=1
     200 walk attempt=3 since=200 status=sending

# old
NPAC /clock minute=215
     200 now=215
CCCC /versions/1
     200 walk attempt=3 since=215 status=old
CCCC /subscriptionVersionCancel id=1
     403 not_yours 11
AAAA /subscriptionVersionCancel id=1
     409 wrong_status 13
BBBB /subscriptionVersionCancel id=1
     409 wrong_status 13
CCCC /subscriptionVersionDisconnect id=1
     403 not_yours 11
AAAA /subscriptionVersionDisconnect id=1
     409 wrong_status 13
AAAA /subscriptionVersionActivate id=1
     409 wrong_status 13

# old, while another is open
AAAA /subscriptionVersionNewSP-Create create due=300
     200 port due=300 id=2 phase=initial since=215
AAAA /subscriptionVersionDisconnect id=1
     409 busy 12
CCCC /subscriptionVersionDisconnect id=1
     403 not_yours 11
AAAA /subscriptionVersionDisconnect id=2
     409 busy 12

# canceled
AAAA /subscriptionVersionCancel id=2
     200 port due=300 id=2 since=215 status=canceled
CCCC /subscriptionVersionCancel id=2
     403 not_yours 11
AAAA /subscriptionVersionCancel id=2
     409 wrong_status 13
BBBB /subscriptionVersionCancel id=2
     409 wrong_status 13
BBBB /subscriptionVersionConflict id=2
     409 wrong_status 13
AAAA /subscriptionVersionDisconnect id=1
     409 wrong_status 13
AAAA /subscriptionVersionDisconnect id=2
     409 wrong_status 13
CCCC /subscriptionVersionNewSP-CancellationAcknowledge id=2
     403 not_yours 11
AAAA /subscriptionVersionNewSP-CancellationAcknowledge id=2
     409 wrong_status 13
