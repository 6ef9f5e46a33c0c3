# A volume, a bucket, and a key with a hundred thousand bytes, which are read by their digest.
a volume create /vol1
a bucket create /vol1/bk1
a key put /vol1/bk1/file fill 7 100000
a key get /vol1/bk1/file
