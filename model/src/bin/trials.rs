//! Prints what the engine's program `trials` must print; its file `stdout`
//! is made by this.

fn main() {
    print!("{}", lavroudem_model::trials::listing());
}
