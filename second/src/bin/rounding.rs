//! The proved rounding against the second program's, over every one of the 2^32 bit patterns of a product.
//! A NaN's patterns, which no product of a front end has, are compared too: read as whole numbers they lie past every float.
use second::front::symbol;

#[link(name = "front", kind = "static")]
extern "C" {
    fn plumtassel_symbol_of_product(bits: u32) -> i8;
}

fn expected(bits: u32) -> i8 {
    let product = f32::from_bits(bits);
    if product.is_nan() {
        return symbol(f32::INFINITY.copysign(product));
    }
    symbol(product)
}

fn main() {
    let mut different = 0u64;
    for bits in 0..=u32::MAX {
        // Safe: the function reads its argument alone.
        let proved = unsafe { plumtassel_symbol_of_product(bits) };
        if proved != expected(bits) {
            different += 1;
            if different <= 10 {
                println!("{bits:08x}: proved {proved}, expected {}", expected(bits));
            }
        }
    }
    println!("{} bit patterns compared, {different} differ", 1u64 << 32);
    if different > 0 {
        std::process::exit(1);
    }
}
