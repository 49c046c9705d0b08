//! Prints the frames of an old and a new table, a line for each in order of iteration:
//!
//!     frames OLD NEW NAMES
//!
//! Each is a file, or - for none. NAMES is the stream /names, where the programs' texts are.

use gillacorn::{FrameTable, StringRef};

fn main() {
    let words: Vec<String> = std::env::args().skip(1).collect();
    let file = |word: &String| match &word[..] {
        "-" => None,
        path => Some(std::fs::read(path).expect(path)),
    };
    let files: Vec<Option<Vec<u8>>> = words.iter().map(file).collect();
    let (old, new, names) = match &files[..] {
        [old, new, names] => (old.as_deref(), new.as_deref(), names.as_deref()),
        _ => panic!("frames OLD NEW NAMES"),
    };
    for frame in FrameTable::new(old, new).iter() {
        let frame = frame.expect("a refusal");
        println!(
            "{:08X} {} {} {} {} {} {} {} {} {} {} {}",
            frame.code_start.0,
            frame.ty,
            frame.code_size,
            frame.locals_size,
            frame.params_size,
            frame.max_stack_size.unwrap_or(0),
            frame.prolog_size,
            frame.saved_regs_size,
            frame.has_structured_eh,
            frame.has_cpp_eh,
            frame.is_function_start,
            frame.program.map_or("-", |program| text(names, program)),
        );
    }
}

/// A string of the stream /names: its bytes begin behind three numbers.
fn text(names: Option<&[u8]>, program: StringRef) -> &str {
    let rest = &names.expect("NAMES")[12 + program.0 as usize..];
    let end = rest.iter().position(|&byte| byte == 0).expect("an end");
    std::str::from_utf8(&rest[..end]).expect("text").trim_end()
}
