//! Gelvanh beside crossterm 0.25.0 in one process: random pieces, and the speed of both.
mod alike;
mod speed;

fn main() {
    let pieces = std::env::args().nth(1).and_then(|n| n.parse().ok()).unwrap_or(100_000);
    // crossterm's panics are counted, and not printed.
    std::panic::set_hook(Box::new(|_| {}));
    let differ = alike::run(pieces);
    speed::run();
    if differ > 0 {
        std::process::exit(1);
    }
}
