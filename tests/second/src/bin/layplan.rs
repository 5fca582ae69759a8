//! The second implementation's layplan as a process.

fn main() -> std::io::Result<()> {
    second::program::run(second::layplan)
}
