# time stamps that go backwards without a rate: an overflow of 32 bits is undone, all else is refused
of=import/backwards
. files/import/each.sh
