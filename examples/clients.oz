# Two clients: each line waits for the last one of the other, so the report is the same however the threads run.
# Keys have no bytes: `fill 0 0` is data of length 0.
ann volume create /music
bob after ann 1 bucket create /music/tapes
ann after bob 1 key put /music/tapes/live fill 0 0
bob after ann 2 key get /music/tapes/live
ann after bob 2 key open draft /music/tapes/demo fill 0 0
bob after ann 3 bucket info /music/tapes
ann after bob 3 key commit draft
bob after ann 4 key rename /music/tapes/demo first
ann after bob 4 key list /music/tapes
bob after ann 5 key delete /music/tapes/live
ann after bob 5 key get /music/tapes/live
bob after ann 6 key open late /music/tapes/late fill 0 0
ann after bob 6 key expire /music/tapes
bob after ann 7 key commit late
ann after bob 7 volume info /music
