"""Prints the tables of crates/gf_checks/src/tables.rt.

    python3 tools/field_tables.py | diff - crates/gf_checks/src/tables.rt

The product of two bytes is taken as on paper, in two steps that the code does not take: the whole product of the two
polynomials first, and then its remainder by long division. The inverse of a is the power a^254, by 253 products.
"""

POLYNOMIAL = 0x11B  # x^8 + x^4 + x^3 + x + 1


def whole_product(a, b):
    return [
        sum((a >> i & 1) * (b >> n - i & 1) for i in range(n + 1)) % 2 for n in range(15)
    ]


def remainder(coefficients):
    left = list(coefficients)
    for top in range(len(left) - 1, 7, -1):
        if left[top]:
            for i in range(9):
                left[top - 8 + i] ^= POLYNOMIAL >> i & 1
    return sum(bit << i for i, bit in enumerate(left[:8]))


def product(a, b):
    return remainder(whole_product(a, b))


def power(a, n):
    result = 1
    for _ in range(n):
        result = product(result, a)
    return result


def rows(table):
    return "".join("    [" + ", ".join(str(x) for x in row) + "],\n" for row in table)


products = [[product(37 * i % 256, (255 + 91 * j) % 256) for j in range(8)] for i in range(32)]
inverses = [[power(8 * i + j, 254) for j in range(8)] for i in range(32)]

print(
    f"""// Tables of products and inverses of bytes, made by tools/field_tables.py, which multiplies polynomials and divides
// the product by long division.

// The product of a and b: a goes up by 37 from row to row, from 0, and b by 91 from column to column, from 255, both
// modulo 256.
pub const PRODUCTS: [[u8; 8]; 32] = [
{rows(products)}];

// The powers a^254, for a from 0 to 255.
pub const INVERSES: [[u8; 8]; 32] = [
{rows(inverses)}];"""
)
