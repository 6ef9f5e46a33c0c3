# A script without a command: the story is empty.

