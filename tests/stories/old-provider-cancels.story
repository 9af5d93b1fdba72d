# The old provider cancels a port that has both creates, and the new one is silent: a conflict, which
# expires, minute by minute.
after created-for-5000

BBBB /subscriptionVersionCancel id=1
     200 far phase=initial since=10 status=cancel-pending
NPAC /clock minute=69
     200 now=69
CCCC /versions/1
     200 far phase=initial since=10 status=cancel-pending
NPAC /clock minute=70
     200 now=70
CCCC /versions/1
     200 far phase=final since=10 status=cancel-pending
NPAC /clock minute=129
     200 now=129
CCCC /versions/1
     200 far phase=final since=10 status=cancel-pending
NPAC /clock minute=130
     200 now=130
CCCC /versions/1
     200 far since=130 status=conflict
for 1125 to 1129
NPAC /clock minute=#
     200 now=#
CCCC /versions/1
     200 far since=130 status=conflict
end
NPAC /clock minute=1130
     200 now=1130
CCCC /versions/1
     200 far since=1130 status=canceled
