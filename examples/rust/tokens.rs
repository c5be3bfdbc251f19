//! Prints the tokens of a file: tokens FILE
//!
//! The calls of `include/js_lex.h`, as Rust sees them.

use std::ptr::NonNull;

#[repr(C)]
#[derive(Clone, Copy, Default)]
struct JsSpan {
    start: u32,
    end: u32,
}

#[repr(C)]
#[derive(Clone, Copy, Default)]
struct JsToken {
    span: JsSpan,
    value: JsSpan,
    pattern_end: u32,
    kind: u8,
    flags: u8,
    regex_flags: u8,
    value_form: u8,
}

/// A list of the caller: where it is, and how many items it may have. What no list is wanted of has room for none.
#[repr(C)]
struct JsList<T> {
    items: NonNull<T>,
    room: usize,
}

impl<T> JsList<T> {
    fn of(items: &mut [T]) -> JsList<T> {
        JsList {
            room: items.len(),
            items: NonNull::from(items).cast(),
        }
    }

    fn none() -> JsList<T> {
        JsList {
            items: NonNull::dangling(),
            room: 0,
        }
    }
}

#[repr(C)]
struct JsLists {
    tokens: JsList<JsToken>,
    units: JsList<u16>,
    diagnostics: JsList<[u32; 4]>,
    deferred: JsList<[u32; 4]>,
    comments: JsList<[u32; 4]>,
    irregular: JsList<JsSpan>,
    warnings: JsList<JsSpan>,
}

#[repr(C)]
#[derive(Debug, Default)]
struct JsCounts {
    tokens: usize,
    units: usize,
    diagnostics: usize,
    deferred: usize,
    comments: usize,
    irregular: usize,
    warnings: usize,
    place: usize,
}

unsafe extern "C" {
    fn js_lex_auto(
        source: NonNull<u8>,
        source_length: usize,
        source_type: u32,
        out: &mut JsLists,
        counts: &mut JsCounts,
    ) -> u32;

    fn js_lex_kind_name(number: u32, buffer: NonNull<u8>, room: usize) -> usize;
}

const MODULE: u32 = 0;

/// The tokens and the pool of a source, or the number that was answered.
fn lex(source: &[u8]) -> Result<(Vec<JsToken>, Vec<u16>), (u32, usize)> {
    let mut tokens = vec![JsToken::default(); source.len() + 1];
    let mut units = vec![0u16; 16];
    loop {
        let mut counts = JsCounts::default();
        let mut lists = JsLists {
            tokens: JsList::of(&mut tokens),
            units: JsList::of(&mut units),
            diagnostics: JsList::none(),
            deferred: JsList::none(),
            comments: JsList::none(),
            irregular: JsList::none(),
            warnings: JsList::none(),
        };
        // Each pointer is that of a list of its own or of one without items, and the call keeps none.
        let answer = unsafe {
            js_lex_auto(
                NonNull::from(source).cast(),
                source.len(),
                MODULE,
                &mut lists,
                &mut counts,
            )
        };
        if answer != 0 {
            return Err((answer, counts.place));
        }
        if counts.units <= units.len() {
            tokens.truncate(counts.tokens);
            return Ok((tokens, units));
        }
        units = vec![0; counts.units];
    }
}

fn kind_name(kind: u8) -> String {
    let mut name = [0u8; 64];
    let length = unsafe { js_lex_kind_name(kind.into(), NonNull::from(&mut name).cast(), name.len()) };
    String::from_utf8_lossy(&name[..length.min(name.len())]).into_owned()
}

fn main() {
    let path = std::env::args().nth(1).expect("tokens FILE");
    let source = std::fs::read(path).expect("a file that can be read");
    match lex(&source) {
        Ok((tokens, units)) => {
            for token in tokens {
                let stretch = token.value.start as usize..token.value.end as usize;
                let value = match token.value_form {
                    1 => format!(" {:?}", String::from_utf8_lossy(&source[stretch])),
                    2 => format!(" {:?}", String::from_utf16_lossy(&units[stretch])),
                    _ => String::new(),
                };
                println!("{} {}..{}{value}", kind_name(token.kind), token.span.start, token.span.end);
            }
        }
        Err((answer, place)) => {
            eprintln!("answer {answer} at {place}");
            std::process::exit(1);
        }
    }
}
