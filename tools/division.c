// Division in 128 bits, which compilers leave to functions: for targets whose runtime library the toolchain doesn't have.
typedef unsigned int u32;
typedef unsigned long long u64;
typedef unsigned __int128 u128;
typedef union { u128 all; struct { u64 low, high; } is; } Wide;
u128 __udivti3(u128 x, u128 by);
u128 __umodti3(u128 x, u128 by);

static u64 halved(u64 high, u64 low, u64 by, u64 *rest) {       // for high < by: Knuth's algorithm D with two digits of 32 bits
	int shift = __builtin_clzll(by);
	by <<= shift;
	u64 first = by >> 32, second = (u32)by, u = shift ? high << shift | low >> (64 - shift) : high, l = low << shift;
	u64 one = u / first, over = u - one * first;
	while (one >> 32 || one * second > (over << 32 | l >> 32)) { one--; over += first; if (over >> 32) break; }
	u = (u << 32 | l >> 32) - one * by;
	u64 two = u / first;
	over = u - two * first;
	while (two >> 32 || two * second > (over << 32 | (u32)l)) { two--; over += first; if (over >> 32) break; }
	*rest = ((u << 32 | (u32)l) - two * by) >> shift;
	return (one << 32) + two;
}
static u128 divided(u128 x, u128 by, u128 *rest) {
	Wide a = {x}, b = {by}, to = {0};
	if (x < by) { *rest = x; return 0; }
	if (b.is.high == 0) {
		u64 left = a.is.high % b.is.low;
		to.is.high = a.is.high / b.is.low;
		to.is.low = halved(left, a.is.low, b.is.low, &left);
		*rest = left;
		return to.all;
	}
	int places = __builtin_clzll(b.is.high) - __builtin_clzll(a.is.high);
	u128 step = by << places;
	for (; places >= 0; places--, step >>= 1) {
		to.all <<= 1;
		if (x >= step) { x -= step; to.all |= 1; }
	}
	*rest = x;
	return to.all;
}
u128 __udivti3(u128 x, u128 by) { u128 rest; return divided(x, by, &rest); }
u128 __umodti3(u128 x, u128 by) { u128 rest; divided(x, by, &rest); return rest; }
