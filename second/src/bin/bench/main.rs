//! Prints the times of the proved library beside the second program's, and what
//! it packs rows into beside what other programs make of them.

mod checks;
#[cfg(feature = "sheets")]
mod deltas;
#[cfg(feature = "sheets")]
mod desk;
#[cfg(feature = "rows")]
mod fitted;
#[cfg(feature = "rows")]
mod heights;
#[cfg(feature = "rows")]
mod items;
#[cfg(feature = "sheets")]
mod maps;
#[cfg(feature = "rows")]
mod rows;
#[cfg(feature = "sheets")]
mod scans;
#[cfg(feature = "sheets")]
mod shelves;
#[cfg(feature = "rows")]
mod sizes;
mod timing;

fn main() {
    println!("Times, each the best of several runs on this machine:");
    println!("  proved  the proved library, called as C calls it");
    println!("  second  second/, an independent implementation in Rust");
    println!("  p/s     proved divided by second: below 1 the proved library is faster");
    println!();
    checks::print();
    #[cfg(feature = "rows")]
    {
        rows::print();
        items::print();
    }
    #[cfg(feature = "sheets")]
    {
        scans::print();
        maps::print();
        shelves::print();
        deltas::print();
        // The programs' folder, where it is given.
        if let Some(folder) = std::env::args_os().nth(1) {
            desk::print(folder.as_ref());
        }
    }
    #[cfg(feature = "rows")]
    sizes::print();
}
