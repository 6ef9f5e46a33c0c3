# Datanodes are stopped, started and wiped. A block is put at all three, and stands where two of them took it.
a volume create /vol1
a bucket create /vol1/bk1
a key put /vol1/bk1/k text abc
a admin stop 2
a key put /vol1/bk1/n text hello
a admin stop 1
# One datanode alone takes no key, and gives those that it has.
a key put /vol1/bk1/m text abc
a key get /vol1/bk1/n
a admin stop 9
# What is started again has what it held: the datanode 2 has `k`, but it was stopped when `n` was put.
a admin start 1
a admin start 2
a admin wipe 0
a admin wipe 1
a key get /vol1/bk1/n
a key get /vol1/bk1/k
a admin stop 2
a key get /vol1/bk1/k
a admin start 2
a admin wipe 2
a key get /vol1/bk1/k
# What is wiped still runs.
a key put /vol1/bk1/k text hello
a key get /vol1/bk1/k
