//! The second implementation's settlement as a process.

fn main() -> std::io::Result<()> {
    second::program::run(second::settlement)
}
