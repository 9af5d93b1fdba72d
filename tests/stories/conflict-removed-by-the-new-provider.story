# The new provider may remove a conflict when its window has ended, and not a minute before.
after conflict-at-50

AAAA /subscriptionVersionRemoveFromConflict id=1
     409 too_early 20
CCCC /subscriptionVersionRemoveFromConflict id=1
     403 not_yours 11
for 165 to 169
NPAC /clock minute=#
     200 now=#
AAAA /subscriptionVersionRemoveFromConflict id=1
     409 too_early 20
end
NPAC /clock minute=170
     200 now=170
AAAA /subscriptionVersionRemoveFromConflict id=1
     200 near since=170
AAAA /subscriptionVersionActivate id=1
     200 near attempt=1 since=170 status=sending
