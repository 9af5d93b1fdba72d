# A conflict that nobody removes expires, minute by minute.
after conflict-at-50

for 1045 to 1049
NPAC /clock minute=#
     200 now=#
CCCC /versions/1
     200 near since=50 status=conflict
end
NPAC /clock minute=1050
     200 now=1050
CCCC /versions/1
     200 near since=1050 status=canceled
BBBB /subscriptionVersionRemoveFromConflict id=1
     409 wrong_status 13
