//! What `replay` should print: reads calls from standard input, prints the model's answers.

use std::io::Read;

fn main() {
    let mut input = vec![];
    let read = std::io::stdin().read_to_end(&mut input);
    read.expect("standard input");
    print!("{}", outside::replay::replay(&input));
}
