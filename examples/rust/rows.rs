// rows.rs: the sample row of the scope document through the static library, from Rust: uncut by one call, then cut at 4 by start, run,
// join and report, with the steps of both; and one refusal. `examples/rust/run.sh` builds and runs it.
//
// A slice crosses as its address and its length. The module `grugalash` below is a safe wrapper: Rust's own rules (a slice is never null, what is
// lent as `&mut` overlaps nothing) are the terms of include/grugalash.h.

mod grugalash {
    mod raw {
        extern "C" {
            pub fn grugalash_load(words: *const u16, words_length: usize, matrix: *mut u8, matrix_length: usize, value: &mut u32) -> u32;
            pub fn grugalash_start(
                words: *const u16, words_length: usize, matrix: *const u8, matrix_length: usize, tokens: *const u16, tokens_length: usize,
                cuts: *const u16, cuts_length: usize, area: *mut u16, area_length: usize, value: &mut u32,
            ) -> u32;
            pub fn grugalash_run(
                words: *const u16, words_length: usize, matrix: *const u8, matrix_length: usize, area: *mut u16, area_length: usize,
                chunk: usize, budget: u32, value: &mut u32,
            ) -> u32;
            pub fn grugalash_join(
                words: *const u16, words_length: usize, matrix: *const u8, matrix_length: usize, area: *mut u16, area_length: usize,
                chunk: usize, value: &mut u32,
            ) -> u32;
            pub fn grugalash_report(
                words: *const u16, words_length: usize, matrix: *const u8, matrix_length: usize, area: *const u16, area_length: usize,
                out: *mut u16, out_length: usize, entries: &mut u32, moves: &mut u32,
            ) -> u32;
            pub fn grugalash_parse(
                words: *const u16, words_length: usize, tokens: *const u16, tokens_length: usize, area: *mut u16, area_length: usize,
                out: *mut u16, out_length: usize, entries: &mut u32, moves: &mut u32,
            ) -> u32;
            pub fn grugalash_entry_tokens(
                report: *const u16, report_length: usize, entry: usize, tokens: *const u16, tokens_length: usize, first: &mut usize,
            ) -> usize;
        }
    }

    /// A refusal: its number and value.
    #[derive(Debug, PartialEq)]
    pub struct Refused(pub u32, pub u32);

    /// A report: how many entries stand at the front of the lent run, and the moves since start.
    pub struct Report {
        pub entries: usize,
        pub moves: u32,
    }

    pub const AT_REST: u32 = 13;

    pub const fn area_words(tokens: usize, chunks: usize) -> usize {
        7 * tokens + 5 * chunks + 13
    }

    fn answer(number: u32, value: u32) -> Result<u32, Refused> {
        if number == 0 { Ok(value) } else { Err(Refused(number, value)) }
    }

    fn reported(number: u32, entries: u32, moves: u32) -> Result<Report, Refused> {
        answer(number, entries).map(|entries| Report { entries: entries as usize, moves })
    }

    pub fn load(words: &[u16], matrix: &mut [u8]) -> Result<u32, Refused> {
        let mut value = 0;
        let number = unsafe { raw::grugalash_load(words.as_ptr(), words.len(), matrix.as_mut_ptr(), matrix.len(), &mut value) };
        answer(number, value)
    }

    pub fn start(words: &[u16], matrix: &[u8], tokens: &[u16], cuts: &[u16], area: &mut [u16]) -> Result<u32, Refused> {
        let mut value = 0;
        let number = unsafe {
            raw::grugalash_start(
                words.as_ptr(), words.len(), matrix.as_ptr(), matrix.len(), tokens.as_ptr(), tokens.len(),
                cuts.as_ptr(), cuts.len(), area.as_mut_ptr(), area.len(), &mut value,
            )
        };
        answer(number, value)
    }

    pub fn run(words: &[u16], matrix: &[u8], area: &mut [u16], chunk: usize, budget: u32) -> Result<u32, Refused> {
        let mut value = 0;
        let number = unsafe {
            raw::grugalash_run(words.as_ptr(), words.len(), matrix.as_ptr(), matrix.len(), area.as_mut_ptr(), area.len(), chunk, budget, &mut value)
        };
        answer(number, value)
    }

    pub fn join(words: &[u16], matrix: &[u8], area: &mut [u16], chunk: usize) -> Result<u32, Refused> {
        let mut value = 0;
        let number = unsafe {
            raw::grugalash_join(words.as_ptr(), words.len(), matrix.as_ptr(), matrix.len(), area.as_mut_ptr(), area.len(), chunk, &mut value)
        };
        answer(number, value)
    }

    pub fn report(words: &[u16], matrix: &[u8], area: &[u16], out: &mut [u16]) -> Result<Report, Refused> {
        let (mut entries, mut moves) = (0, 0);
        let number = unsafe {
            raw::grugalash_report(
                words.as_ptr(), words.len(), matrix.as_ptr(), matrix.len(), area.as_ptr(), area.len(),
                out.as_mut_ptr(), out.len(), &mut entries, &mut moves,
            )
        };
        reported(number, entries, moves)
    }

    pub fn parse(words: &[u16], tokens: &[u16], area: &mut [u16], out: &mut [u16]) -> Result<Report, Refused> {
        let (mut entries, mut moves) = (0, 0);
        let number = unsafe {
            raw::grugalash_parse(
                words.as_ptr(), words.len(), tokens.as_ptr(), tokens.len(), area.as_mut_ptr(), area.len(),
                out.as_mut_ptr(), out.len(), &mut entries, &mut moves,
            )
        };
        reported(number, entries, moves)
    }

    pub fn entry_tokens<'a>(report: &[u16], entry: usize, tokens: &'a [u16]) -> &'a [u16] {
        let mut first = 0;
        let count = unsafe { raw::grugalash_entry_tokens(report.as_ptr(), report.len(), entry, tokens.as_ptr(), tokens.len(), &mut first) };
        &tokens[first..first + count]
    }
}

use grugalash::{AT_REST, Refused, Report};

// Grammar K: terminals s 1, comma 2, "(" 3, ")" 4, count 5; nonterminals I 0 and L 1, both axioms.
const WORDS: [u16; 29] = [5, 2, 2, 5, 9, 11, 16, 21, 25, 0, 1, 0, 3, 256, 4, 5, 0, 3, 257, 4, 5, 1, 256, 2, 256, 1, 257, 2, 256];
const RULES: [&str; 5] = ["I -> s", "I -> ( I ) count", "I -> ( L ) count", "L -> I , I", "L -> L , I"];
const ROW: [u16; 8] = [1, 2, 3, 1, 2, 1, 4, 5];

fn print_steps(title: &str, report: &Report, run: &[u16]) {
    println!("{title}: {} steps, {} moves", report.entries, report.moves);
    for e in 0..report.entries {
        let entry = &run[3 * e..3 * e + 3];
        let tokens = grugalash::entry_tokens(&run[..3 * report.entries], e, &ROW);
        println!("  step {}: {:<16} places {} to {}, tokens {:?}", e + 1, RULES[entry[0] as usize], entry[1], entry[2], tokens);
    }
}

// A chunk moved until it rests; a chunk with nothing to do is at rest already.
fn run_to_rest(matrix: &[u8], area: &mut [u16], chunk: usize) -> Result<(), Refused> {
    match grugalash::run(&WORDS, matrix, area, chunk, u32::MAX) {
        Ok(made) => println!("  chunk {chunk} made {made} moves"),
        Err(Refused(AT_REST, _)) => {}
        Err(refused) => return Err(refused),
    }
    Ok(())
}

fn read_cut(cut: u16, area: &mut [u16], out: &mut [u16]) -> Result<Report, Refused> {
    let mut matrix = [0u8; 4096];
    grugalash::load(&WORDS, &mut matrix)?;
    grugalash::start(&WORDS, &matrix, &ROW, &[cut], area)?;
    println!("cut at {cut}:");
    run_to_rest(&matrix, area, 1)?;
    run_to_rest(&matrix, area, 0)?;
    grugalash::join(&WORDS, &matrix, area, 0)?;
    println!("  joined");
    run_to_rest(&matrix, area, 0)?;
    grugalash::report(&WORDS, &matrix, area, out)
}

fn main() {
    let mut area = [0u16; grugalash::area_words(ROW.len(), 2)];
    let (mut uncut, mut cut) = ([0u16; 3 * ROW.len()], [0u16; 3 * ROW.len()]);
    let report = grugalash::parse(&WORDS, &ROW, &mut area, &mut uncut).expect("the sample is a row");
    print_steps("uncut", &report, &uncut);
    let report = read_cut(4, &mut area, &mut cut).expect("the sample is a row");
    print_steps("cut at 4", &report, &cut);
    println!("the same steps: {}", if uncut == cut { "yes" } else { "no" });
    match grugalash::parse(&WORDS, &[1, 2], &mut area, &mut cut) {
        Err(Refused(number, value)) => println!("the row 1 2: refused {number} {value}"),
        Ok(_) => println!("the row 1 2: accepted"),
    }
}
