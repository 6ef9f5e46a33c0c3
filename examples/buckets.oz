# Two volumes, a few buckets, and what is refused.
a volume create /music
a volume create /letters
a bucket create /music/vinyl
a bucket create /music/tapes
a bucket create /music/vinyl
a bucket info /music/vinyl
a bucket list /music
a volume info /music
a volume delete /music
a bucket delete /music/vinyl
a bucket list /music
a bucket info /music/vinyl
a volume delete /letters
a volume info /letters
