# A snapshot of a day. Keys are put, and the snapshot keeps them as they are.
a volume create /logs
a bucket create /logs/app
a key put /logs/app/morning text abc
a key put /logs/app/noon fill 7 100000
a key open late /logs/app/evening text hello
a snapshot create /logs/app day1
a snapshot info /logs/app day1
# Then one is overwritten, one gets another name, and what was open is committed: the day stays as it was.
a key put /logs/app/morning text hello
a key rename /logs/app/noon midday
a key commit late
a key list /logs/app
a key list /logs/app/.snapshot/day1
a key get /logs/app/.snapshot/day1/noon
a snapshot create /logs/app day2
# The keys are deleted. They are read in the snapshots.
a key delete /logs/app/morning
a key delete /logs/app/midday
a key delete /logs/app/evening
a key list /logs/app
a key get /logs/app/.snapshot/day1/morning
a key get /logs/app/.snapshot/day1/evening
a key get /logs/app/.snapshot/day2/morning
a key get /logs/app/.snapshot/day2/evening
a snapshot list /logs/app
# A snapshot keeps its bucket. Once it is deleted its name is free, and the other one keeps what it has.
a bucket delete /logs/app
a snapshot create /logs/app day2
a snapshot delete /logs/app day1
a key get /logs/app/.snapshot/day1/morning
a key get /logs/app/.snapshot/day2/midday
a snapshot create /logs/app day1
a snapshot list /logs/app
