# The retention of a port counts from the minute in which its conflict was removed, where that is later than
# the due minute.
after conflict-at-50

NPAC /clock minute=200
     200 now=200
BBBB /subscriptionVersionRemoveFromConflict id=1
     200 near since=200
for 695 to 699
NPAC /clock minute=#
     200 now=#
CCCC /versions/1
     200 near since=200
end
NPAC /clock minute=700
     200 now=700
CCCC /versions/1
     200 near since=700 status=canceled
