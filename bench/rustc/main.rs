//! Runs a listing of `hydra words` on the plain machine, and prints what it prints, how it ends, and its counts.

#![allow(dead_code, unused_imports, unused_labels, unused_variables)]

mod hx_cells;
mod hx_code;
mod hx_exec;
mod hx_instruction;
mod hx_loops;
mod hx_outside;
mod hx_single;
mod hx_table;
mod hx_tree;
mod hx_word;
mod kit;
mod listing;

use hx_exec::executable::Executable;
use hx_word::plain::{Plain, Ran};
use kit::Global;

fn main() {
    let path = std::env::args().nth(1).expect("the path of a listing");
    let text = std::fs::read_to_string(path).expect("a listing");
    let code = listing::code_of(&text).expect("a listing of valid code");
    let Ok(code) = Executable::new(Global, code) else {
        unreachable!("Rust's library answers for memory itself")
    };
    let Ok(plain) = Plain::new(Global, &code, &[]) else {
        unreachable!("no input is wanted")
    };
    match plain.run(u64::MAX) {
        Ran::Ended(outcome, counts) => {
            print!("{}", String::from_utf8_lossy(&outcome.text));
            println!("{:?}, {} regions, {} turns", outcome.end, counts.regions, counts.turns);
        }
        Ran::More(_) => println!("more"),
    }
}
