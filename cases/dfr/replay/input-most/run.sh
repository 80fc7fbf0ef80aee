# 16,777,216 bytes are read: comments, and no set-up
yes "#" | head -c 16777216 | "$dfr"
