# From the lines of sweep --experiments those of sweep --fields.
function signed(n) {
    return n < 32768 ? n : n - 65536
}
function x(n) {
    return signed(n % 65536)
}
function y(n) {
    return signed(int(n / 65536))
}
function bits(n, low, count) {
    return int(n / 2 ^ low) % 2 ^ count
}
BEGIN {
    FS = OFS = "\t"
}
$1 == "point" {
    next
}
{
    print $1, $2, x($2), y($2), $3, $4, x($4), y($4), $5, $6, x($7), y($7), x($8), y($8),
        $9 % 65536, int($9 / 65536), $10, $11, bits($12, 10, 5), bits($12, 5, 1), bits($12, 6, 2),
        bits($12, 8, 1), bits($12, 9, 1), bits($12, 15, 1), $13, $14, $15
}
