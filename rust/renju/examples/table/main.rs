//! A table to sit at, in a browser: `table [PORT] [SEED]`. It listens on 127.0.0.1 alone and says where; two players sit opposite each
//! other, others watch, and each page turns the board as it likes. The answer to "Why does the red cross on my point arrive after my
//! stone?": here it comes with the stone, in one message.
//!
//! The package needs nothing but its archive; `cargo run --release -p runs --example table_beside` is the same table with the original
//! referee measured beside this one.

mod house;

fn main() -> std::process::ExitCode {
    house::main(None)
}
