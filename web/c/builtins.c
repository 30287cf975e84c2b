/* The functions that LLVM calls for numbers of 128 bits. WebAssembly has no compiler-rt here. */
typedef unsigned long u64;
__extension__ typedef __int128 i128;
typedef union {
    i128 all;
    struct { u64 low, high; } half;
} pair;

static const u64 LOW = 0xffffffffu;

i128 __multi3(i128 a, i128 b)
{
    pair x = {a}, y = {b}, product;
    u64 low = (x.half.low & LOW) * (y.half.low & LOW);
    u64 cross = (x.half.low >> 32) * (y.half.low & LOW);
    u64 other = (x.half.low & LOW) * (y.half.low >> 32);
    u64 high = (x.half.low >> 32) * (y.half.low >> 32);
    u64 middle = (low >> 32) + (cross & LOW) + (other & LOW);

    product.half.low = (low & LOW) | (middle << 32);
    product.half.high = high + (cross >> 32) + (other >> 32) + (middle >> 32) + x.half.high * y.half.low
                        + x.half.low * y.half.high;
    return product.all;
}

i128 __ashlti3(i128 a, int n)
{
    pair x = {a}, shifted = x;

    if (n & 64) {
        shifted.half.low = 0;
        shifted.half.high = x.half.low << (n & 63);
    } else if (n) {
        shifted.half.low = x.half.low << n;
        shifted.half.high = (x.half.high << n) | (x.half.low >> (64 - n));
    }
    return shifted.all;
}

i128 __lshrti3(i128 a, int n)
{
    pair x = {a}, shifted = x;

    if (n & 64) {
        shifted.half.high = 0;
        shifted.half.low = x.half.high >> (n & 63);
    } else if (n) {
        shifted.half.high = x.half.high >> n;
        shifted.half.low = (x.half.low >> n) | (x.half.high << (64 - n));
    }
    return shifted.all;
}
