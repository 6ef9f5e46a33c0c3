# A script that is refused: its fourth command is a drain, which no run serves yet. So no line is served.
a volume create /vol1
a bucket create /vol1/bk1
a key put /vol1/bk1/k text abc
a admin drain
