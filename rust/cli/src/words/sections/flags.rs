//! The flags of a section: a letter for the report, a name for JSON, and words for the legend.

use gillacorn::SectionCharacteristics;

pub struct Flag {
    letter: char,
    /// The library's name, and JSON's.
    pub name: &'static str,
    words: &'static str,
    is_set: fn(SectionCharacteristics) -> bool,
}

macro_rules! flags {
    ($($letter:literal $name:ident $words:literal)*) => {
        &[$(Flag {
            letter: $letter,
            name: stringify!($name),
            words: $words,
            is_set: SectionCharacteristics::$name,
        }),*]
    };
}

/// Every flag, in the order in which they are shown. Capitals are those of /SECTION of Microsoft's
/// linker.
const FLAGS: &[Flag] = flags! {
    'c' executable "code"
    'd' initialized_data "initialized data"
    'z' uninitialized_data "uninitialized data"
    'E' execute "execute"
    'R' read "read"
    'W' write "write"
    'S' shared "shared"
    'D' discardable "discardable"
    'K' not_cached "not cached"
    'P' not_paged "not paged"
    'o' other "other"
    'i' info "info"
    'r' remove "removed"
    'm' comdat "comdat"
    'x' defer_speculative_exceptions "defer speculative exceptions"
    'g' global_pointer_relative "global pointer relative"
    'u' purgeable "purgeable"
    'l' locked "locked"
    'p' preload "preload"
    'n' lnk_nreloc_ovfl "relocations overflow"
};

/// The flags that are set in one of these at least.
pub fn set(all: &[SectionCharacteristics]) -> impl Iterator<Item = &'static Flag> + '_ {
    let in_one = |flag: &&Flag| all.iter().any(|one| (flag.is_set)(*one));
    FLAGS.iter().filter(in_one)
}

pub fn letters(characteristics: SectionCharacteristics) -> String {
    set(&[characteristics]).map(|flag| flag.letter).collect()
}

/// A line that tells what the letters mean that occur; none where none does.
pub fn legend(all: &[SectionCharacteristics]) -> Option<String> {
    let told = set(all).map(|flag| format!("{} {}", flag.letter, flag.words));
    let told: Vec<_> = told.collect();
    (!told.is_empty()).then(|| format!("flags: {}", told.join(", ")))
}

/// The whole legend, for `--help`.
pub fn help() -> String {
    let mut help = String::from("Flags by letter, and by their names in JSON:");
    for flag in FLAGS {
        let line = format!("\n  {}  {:<28}  {}", flag.letter, flag.words, flag.name);
        help.push_str(&line);
    }
    help
}
