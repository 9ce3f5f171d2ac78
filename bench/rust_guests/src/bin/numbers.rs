//! Big numbers: as many Fibonacci numbers and factors of a factorial as the first line says.
use num_bigint::BigUint;

fn main() {
    let count: u32 = rust_guests::text().trim().parse().unwrap();
    let (mut a, mut b, mut product) = (BigUint::from(0u32), BigUint::from(1u32), BigUint::from(1u32));
    for n in 1..=count {
        let next = &a + &b;
        a = std::mem::replace(&mut b, next);
        product *= n;
    }
    println!("{a}\n{product}\n{}", product.modpow(&BigUint::from(65537u32), &b));
}
