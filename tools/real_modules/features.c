// One C text for many targets: what each feature of a target adds stands behind the macro of that feature.
typedef unsigned char u8;
typedef unsigned int u32;
typedef unsigned long long u64;

extern int host_value(int index) __attribute__((import_module("host"), import_name("value")));
extern int outside(const char *text, ...);

struct Pair { int first; double second; };
static const struct Pair PAIRS[] = {{1, 1.5}, {2, -0.0}, {3, 1e300}};
static int counts[100] = {1, 2, 3};
int shared_count = -5;
const char *const WORDS[] = {"one", "two", "three", "one"};

static int add(int a, int b) { return a + b; }
static int sub(int a, int b) { return a - b; }
static int mul(int a, int b) { return a * b; }
int (*const OPERATIONS[])(int, int) = {add, sub, mul, add};

__attribute__((export_name("apply"))) int apply(u32 which, int a, int b) {
    return which < 4 ? OPERATIONS[which](a, b) : -1;
}

int choose(int n) {
    switch (n) {
    case 0: return host_value(3);
    case 1: return shared_count++;
    case 2: return counts[n + 5];
    case 3: return (int)PAIRS[2].second;
    case 7: return WORDS[1][0];
    case 8: return outside("%d %s", n, WORDS[n & 3]);
    default: return n * 31;
    }
}

u64 mixed(u64 a, u32 b, float c, double d) {
    u64 rest = a / (b | 1) + (a % 1000003) + (a << (b & 63)) + (a >> 3);
    rest ^= (u64)__builtin_popcountll(a) + __builtin_clz(b | 1) + __builtin_ctzll(a | 1);
    return rest + (u64)(long long)d + (u32)(int)c + (c < d) + (u64)__builtin_sqrt(d) + (u64)__builtin_fabsf(c);
}

void fill(u8 *to, const u8 *from, u32 length) {
    __builtin_memcpy(to, from, length);
    __builtin_memset(to + length, 7, length);
    __builtin_memmove(to, to + 1, length);
}

struct Pair pair_of(int n) { return PAIRS[n % 3]; }

__attribute__((noinline)) static int is_odd(u32 n);
__attribute__((noinline)) static int is_even(u32 n) {
#if defined(__wasm_tail_call__)
    if (n) __attribute__((musttail)) return is_odd(n - 1);
#else
    if (n) return is_odd(n - 1);
#endif
    return 1;
}
static int is_odd(u32 n) { return n ? is_even(n - 1) : 0; }
int parity(u32 n) { return is_even(n); }

#if defined(__wasm_simd128__)
typedef float f4 __attribute__((vector_size(16)));
typedef u8 b16 __attribute__((vector_size(16)));
f4 axpy(f4 a, f4 x, f4 y) { return a * x + y; }
b16 turned(b16 v) { return __builtin_shufflevector(v, v, 15, 14, 13, 12, 11, 10, 9, 8, 7, 6, 5, 4, 3, 2, 1, 0); }
float total(const float *at, u32 n) {
    float sum = 0;
    for (u32 i = 0; i < n; i++) sum += at[i] * at[i];
    return sum;
}
void blend(u8 *restrict out, const u8 *restrict a, const u8 *restrict b, u32 n) {
    for (u32 i = 0; i < n; i++) out[i] = (u8)((a[i] + b[i] + 1) / 2);
}
#endif

#if defined(__wasm_atomics__)
static _Thread_local int mine;
int taken;
_Atomic u64 wide;
int enter(int n) {
    mine += n;
    int before = __atomic_fetch_add(&taken, n, __ATOMIC_SEQ_CST);
    int wanted = 4;
    __atomic_compare_exchange_n(&taken, &wanted, 5, 0, __ATOMIC_SEQ_CST, __ATOMIC_SEQ_CST);
    __atomic_thread_fence(__ATOMIC_SEQ_CST);
    wide ^= 0x123456789ull;
    __builtin_wasm_memory_atomic_notify((int *)&taken, 1);
    return before + mine + __builtin_wasm_memory_atomic_wait32((int *)&taken, 1, -1);
}
#endif

#if defined(__wasm_reference_types__) && __clang_major__ >= 17
__attribute__((nodebug)) static __externref_t kept[0];
__externref_t keep(__externref_t one) {
    __builtin_wasm_table_grow(kept, one, 1);
    __builtin_wasm_table_set(kept, 0, one);
    return __builtin_wasm_table_get(kept, 0);
}
#endif

unsigned __int128 wide_sum(u64 a, u64 b, unsigned __int128 rest) { return (unsigned __int128)a * b + rest; }

#if defined(__wasm_gc__)
int is_operation(int (*which)(int, int)) { return __builtin_wasm_test_function_pointer_signature(which); }
#endif

__asm__(".section .custom_section.note,\"\",@\n.ascii \"a custom section by hand\"\n.text\n");

void _start(void) { shared_count = choose(shared_count) + (int)mixed(1, 2, 3, 4) + parity(7) + apply(1, 2, 3); }
