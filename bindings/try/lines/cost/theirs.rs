//! Asks for lines until Ctrl-D.
fn main() {
    let mut editor = rustyline::Editor::<()>::new();
    while let Ok(text) = editor.readline("> ") {
        editor.add_history_entry(std::hint::black_box(text));
    }
}
