# A module as text whose code was lowered for pointers of eight bytes, for a target whose pointers have four: a byte and a pointer that are read as one pair
# stand eight bytes apart, as they were lowered, whatever a pointer's own size; and an address is taken as a number by a word that fits both sizes.
# usage: awk -f tools/apart.awk MODULE.ll
{ sub(/ = ptrtoaddr ptr /, " = ptrtoint ptr ") }
/ = load \{ i8, ptr \}, ptr / {
    place = $0
    sub(/.* = load \{ i8, ptr \}, ptr /, "", place)
    sub(/,.*/, "", place)
    n++
    print "  %apart." n ".byte = load i8, ptr " place ", align 8"
    print "  %apart." n ".at = getelementptr i8, ptr " place ", i64 8"
    print "  %apart." n ".pointer = load ptr, ptr %apart." n ".at, align 8"
    print "  %apart." n ".half = insertvalue { i8, ptr } poison, i8 %apart." n ".byte, 0"
    print "  " $1 " = insertvalue { i8, ptr } %apart." n ".half, ptr %apart." n ".pointer, 1"
    next
}
{ print }
