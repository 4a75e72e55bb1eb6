//! What the program should print: reads standard input, prints the model's answer.

use std::io::Read;

fn main() {
    let mut input = vec![];
    let read = std::io::stdin().read_to_end(&mut input);
    read.expect("standard input");
    print!("{}", outside::model::program(&input));
}
