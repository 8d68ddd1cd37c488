/* xxHash's own XXH64, from the header of Debian's libxxhash-dev, for bench/run to compile by clang. */
#define XXH_INLINE_ALL
#include <xxhash.h>

XXH64_hash_t xxh64_by_clang(const void *data, size_t length)
{
    return XXH64(data, length, 0);
}
