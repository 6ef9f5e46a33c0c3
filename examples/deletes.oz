# What nothing reaches is freed as the run ends. The key is put again: its first bytes are two blocks that nobody reaches any more.
a volume create /vol1
a bucket create /vol1/bk1
a key put /vol1/bk1/log fill 7 100000
a key put /vol1/bk1/log text abc
# It is deleted, and a snapshot has it still.
a snapshot create /vol1/bk1 day1
a key delete /vol1/bk1/log
a key get /vol1/bk1/.snapshot/day1/log
# A key is deleted that no snapshot has, and a session is expired that was never committed.
a key put /vol1/bk1/gone text hello
a key delete /vol1/bk1/gone
a key open late /vol1/bk1/half fill 3 20
a key expire /vol1/bk1
a key get /vol1/bk1/gone
# Behind the last line the run has four blocks deleted at all three datanodes. `./ozone check` then counts one, which the snapshot has.
a bucket info /vol1/bk1
