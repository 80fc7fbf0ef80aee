# one byte more
yes "#" | head -c 16777217 | "$dfr"
