# Keys with bytes, in one piece, in two and in sixteen: each block stands on three datanodes.
a volume create /vol1
a bucket create /vol1/bk1
a key put /vol1/bk1/greeting text hello
a key put /vol1/bk1/two fill 1 65537
a key put /vol1/bk1/large fill 7 1048576
a key get /vol1/bk1/greeting
a key get /vol1/bk1/two
a key get /vol1/bk1/large
# What is opened is there once it is committed.
a key open next /vol1/bk1/greeting text good-bye
a key get /vol1/bk1/greeting
a key commit next
a key get /vol1/bk1/greeting
a key rename /vol1/bk1/two second
a key get /vol1/bk1/second
a key delete /vol1/bk1/large
a key list /vol1/bk1
