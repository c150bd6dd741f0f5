// The system calls of linsim for WebAssembly: memory, the files that the host has, and no threads.
//
// linsim's object comes from the toolchain's lowering for 64 bits (lower.py), in which usize has 64 bits; so sizes are u64
// here. Arguments, files and the exit go through the imports of the module "host"; a negative result is an error number.
typedef unsigned char u8;
typedef int i32;
typedef unsigned int u32;
typedef long long i64;
typedef unsigned long long u64;
typedef __SIZE_TYPE__ usize;

#define HOST(name) __attribute__((import_module("host"), import_name(#name)))
HOST(arg) i32 host_arg(u32 at, u8 *to, u32 room);              // its length; -1: no such argument, -2: more than room
HOST(open) i32 host_open(const u8 *name, u32 length, i32 how);
HOST(close) i32 host_close(i32 file);
HOST(read) i32 host_read(i32 file, u8 *to, u32 room);
HOST(write) i32 host_write(i32 file, const u8 *from, u32 length);
HOST(seek) i64 host_seek(i32 file, i64 by, i32 whence);
HOST(terminal) i32 host_terminal(i32 file);                    // 1: the file is a terminal
HOST(exit) _Noreturn void host_exit(i32 status);

enum { EAGAIN = 11, ENOMEM = 12, ENOSYS = 38 };
static const u64 MOST = 1 << 30;                               // the most bytes of one read or write

// Memory. Each block has 16 bytes before it, with its size. Blocks of up to 32 KiB have one of 45 sizes, four for each
// doubling; a free one is in the list of its size. Larger blocks are cut from free ones, which are in a list by address
// and are merged with free neighbors; so the memory that a growing Vec leaves is used again.
typedef struct Block { u64 size; struct Block *next; } Block;
enum { HEADER = 16, SMALL = 32768, SIZES = 45, PAGE = 65536 };
static const u64 MEMORY = 0xFFFF0000;                          // a page short of 4 GiB: no block ends at 2^32
extern u8 __heap_base;
static Block *lists[SIZES], *large;
static u64 top, end;                                           // the ends of the last block and of the memory

static u64 end_of(Block *block) { return (u64)(usize)block + block->size; }
static u32 place_of(u64 size) {                                // the number of the smallest size that holds this one
	if (size <= 16) return 0;
	u64 above = size - 1;
	u32 bits = 63 - __builtin_clzll(above);                    // 2^bits < size <= 2^(bits + 1)
	return (bits - 4) * 4 + ((above >> (bits - 2)) & 3) + 1;
}
static u64 total_of(u64 size) {                                // the size of a block, with its header
	if (size > SMALL) return (size + HEADER + 63) & ~63ULL;
	u32 place = place_of(size);
	return ((place ? ((u64)(4 + (place & 3)) << (place / 4 + 4)) / 4 : 16) + HEADER + 15) & ~15ULL;
}
static int reach(u64 to) {                                     // grows the memory up to here
	if (to <= end) return 1;
	if (to > MEMORY) return 0;
	u64 pages = (to - end + PAGE - 1) / PAGE;
	if (__builtin_wasm_memory_grow(0, (usize)pages) == (usize)-1) return 0;
	end += pages * PAGE;
	return 1;
}
static void cut(Block *block, u64 total, Block **from) {       // takes a block from the list; a large rest of it stays there
	if (block->size - total > SMALL) {
		Block *rest = (Block *)((u8 *)block + total);
		*rest = (Block){block->size - total, block->next};
		*from = rest;
		block->size = total;
	} else {
		*from = block->next;
	}
}

void *malloc(u64 size) {
	if (size > MEMORY) return 0;
	if (top == 0) {
		top = ((u64)(usize)&__heap_base + 15) & ~15ULL;
		end = (u64)__builtin_wasm_memory_size(0) * PAGE;
	}
	u64 total = total_of(size);
	Block **from = &large, *block;
	if (size <= SMALL) {
		from = &lists[place_of(size)];
		block = *from;
		if (block) *from = block->next;
	} else {
		while (*from && (*from)->size < total) from = &(*from)->next;
		block = *from;
		if (block) cut(block, total, from);
	}
	if (!block) {
		if (!reach(top + total)) return 0;
		block = (Block *)(usize)top;
		block->size = total;
		top += total;
	}
	return (u8 *)block + HEADER;
}

void free(void *at) {
	if (!at) return;
	Block *block = (Block *)((u8 *)at - HEADER), **from = &large, *before = 0;
	if (block->size <= total_of(SMALL)) {
		from = &lists[place_of(block->size - HEADER)];
		block->next = *from;
		*from = block;
		return;
	}
	while (*from && *from < block) { before = *from; from = &before->next; }
	block->next = *from;
	if (block->next && end_of(block) == (u64)(usize)block->next) { block->size += block->next->size; block->next = block->next->next; }
	if (before && end_of(before) == (u64)(usize)block) { before->size += block->size; before->next = block->next; }
	else *from = block;
}

void *realloc(void *at, u64 size) {
	if (!at) return malloc(size);
	if (size > MEMORY) return 0;
	Block *block = (Block *)((u8 *)at - HEADER), **from = &large;
	u64 total = total_of(size), holds = block->size - HEADER;
	if (total <= block->size && total >= block->size / 4) return at;
	if (block->size > total_of(SMALL) && size > SMALL) {       // in place: as the last block, or with a free neighbor
		if (end_of(block) == top) {
			if (!reach((u64)(usize)block + total)) return 0;
			block->size = total;
			top = end_of(block);
			return at;
		}
		while (*from && *from < block) from = &(*from)->next;
		Block *next = *from;
		if (next && end_of(block) == (u64)(usize)next && block->size + next->size >= total) {
			block->size += next->size;
			block->next = next->next;
			cut(block, total, from);
			return at;
		}
	}
	void *to = malloc(size);
	if (!to) return 0;
	__builtin_memcpy(to, at, size < holds ? size : holds);
	free(at);
	return to;
}

#include "../tools/heap.c"

// Arguments and files.
static i32 number;
i32 rattle_errno(void) { return number; }
void rattle_set_errno(i32 to) { number = to; }
static i64 checked(i64 result) {
	if (result >= 0) return result;
	number = (i32)-result;
	return -1;
}
i64 rattle_arg(u64 at, u8 *to, u64 room) { return host_arg((u32)at, to, room > MOST ? MOST : (u32)room); }
i64 read(i32 file, u8 *to, u64 room) { return checked(host_read(file, to, room > MOST ? MOST : (u32)room)); }
i64 write(i32 file, const u8 *from, u64 length) { return checked(host_write(file, from, length > MOST ? MOST : (u32)length)); }
i64 lseek(i32 file, i64 by, i32 whence) { return checked(host_seek(file, by, whence)); }
i32 close(i32 file) { return (i32)checked(host_close(file)); }
i32 isatty(i32 file) { return host_terminal(file); }
i32 open(const u8 *name, i32 how, ...) {
	u32 length = 0;
	while (name[length]) length++;
	return (i32)checked(host_open(name, length, how));
}

// No threads: starting one fails, as on a system that has no room for another.
i32 pthread_attr_init(void *at) { (void)at; return 0; }
i32 pthread_attr_setguardsize(void *at, u64 size) { (void)at; (void)size; return 0; }
i32 pthread_attr_setstacksize(void *at, u64 size) { (void)at; (void)size; return 0; }
i32 pthread_attr_destroy(void *at) { (void)at; return 0; }
i32 pthread_create(void *at, void *how, void *what, void *with) { (void)at; (void)how; (void)what; (void)with; return EAGAIN; }
i32 pthread_detach(u64 thread) { (void)thread; return 0; }
i32 pthread_join(u64 thread, void *at) { (void)thread; (void)at; return 0; }
u64 pthread_self(void) { return 1; }
i32 sched_yield(void) { return 0; }
i64 syscall(i64 which, void *at, i64 a, i64 b, void *c, ...) { (void)which; (void)at; (void)a; (void)b; (void)c; number = ENOSYS; return -1; }
u64 __sysv_signal(i32 which, u64 what) { (void)which; (void)what; return 0; }
_Noreturn void _exit(i32 status) { host_exit(status); }
_Noreturn void abort(void) { __builtin_trap(); }

// Arithmetic in 128 bits, which compilers leave to functions.
typedef __int128 i128;
#include "../tools/division.c"

i128 __multi3(i128 x, i128 y) {
	Wide a = {(u128)x}, b = {(u128)y}, to;
	u64 al = (u32)a.is.low, ah = a.is.low >> 32, bl = (u32)b.is.low, bh = b.is.low >> 32;
	u64 low = al * bl, middle = ah * bl + (low >> 32), other = al * bh + (u32)middle;
	to.is.low = other << 32 | (u32)low;
	to.is.high = ah * bh + (middle >> 32) + (other >> 32) + a.is.high * b.is.low + a.is.low * b.is.high;
	return (i128)to.all;
}
u128 __ashlti3(u128 x, i32 by) {
	Wide a = {x}, to;
	if (by & 64) { to.is.low = 0; to.is.high = a.is.low << (by & 63); }
	else if (by == 0) return x;
	else { to.is.low = a.is.low << by; to.is.high = a.is.high << by | a.is.low >> (64 - by); }
	return to.all;
}
u128 __lshrti3(u128 x, i32 by) {
	Wide a = {x}, to;
	if (by & 64) { to.is.high = 0; to.is.low = a.is.high >> (by & 63); }
	else if (by == 0) return x;
	else { to.is.high = a.is.high >> by; to.is.low = a.is.low >> by | a.is.high << (64 - by); }
	return to.all;
}
// linsim, as a program. As a session (session.rs) it runs again and again in the same memory, and keeps a pointer here.
static i32 is_session;
static u8 *kept;
i32 linsim_is_session(void) { return is_session; }
u8 *linsim_kept(void) { return kept; }
void linsim_keep(u8 *at) { kept = at; }
i32 linsim_main(void);
__attribute__((export_name("run"))) i32 run(void) { return linsim_main(); }
__attribute__((export_name("session"))) i32 session(void) { is_session = 1; return linsim_main(); }
