# Sourced by what runs the program: how the C library hands out memory to it. The program makes many
# small pieces that live long. So it gets one arena for all threads, which grows by 16 MB at a time
# and in large pages, and long lists of freed pieces for reuse. No answer depends on it, only the
# time: `generate` of 100,000 links takes about three quarters of it. What the user has set stands,
# and a C library other than glibc doesn't read it.
if [ -z "${GLIBC_TUNABLES+set}" ]; then
    malloc=glibc.malloc
    GLIBC_TUNABLES=$malloc.arena_max=1:$malloc.top_pad=16777216:$malloc.hugetlb=1
    GLIBC_TUNABLES=$GLIBC_TUNABLES:$malloc.mxfast=0:$malloc.tcache_count=1000
    export GLIBC_TUNABLES
fi
