//! The peer of a whole process: it reads the file and prints 15.

fn main() {
    let file = std::fs::read(std::env::args().nth(1).unwrap()).unwrap();
    std::hint::black_box(file);
    println!("15");
}
