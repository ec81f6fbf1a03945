//! A slice of the second program's corpus, all jobs, each answer held against the line that is kept for it. `tests/slice` makes the slice,
//! for C as well. The archive is for x86-64, so elsewhere this says so and tests nothing.

#[cfg(target_arch = "x86_64")]
mod on_x86_64 {
    use meirhuppa::{
        evaluate, expand, panel, parse, print, read, replace, resolve, scan, shrink, summary, uses, Answer, Refusal, Rivals, WORDS_PER_UNIT,
    };
    use std::process::Command;

    const TABLE_FILL: u32 = 0xa5a5_a5a5;
    const OUTPUT_FILL: u8 = 0x5a;

    const PANEL: u32 = 4;
    const SCAN: u32 = 5;
    const READ: u32 = 6;
    const PRINT: u32 = 7;
    const SUMMARY: u32 = 8;
    const USES: u32 = 9;
    const REPLACE: u32 = 10;
    const SHRINK: u32 = 11;

    /// A call of the stream. The image of a `READ` is its text; the phase of a `USES` is a name, that of a `REPLACE` a place.
    struct Call<'a> {
        job: u32,
        phase: u32,
        budget: u32,
        table_words: usize,
        output_length: usize,
        image: &'a [u8],
        recording: &'a [u8],
        summary: Vec<u32>,
        part: &'a [u8],
    }

    /// The stream's next number: groups of seven bits, the low group first, the top bit set on all but the last.
    fn next_number(stream: &mut &[u8]) -> u32 {
        let last = stream.iter().position(|&group| group < 128).expect("a number has an end");
        let (groups, rest) = stream.split_at(last + 1);
        *stream = rest;
        groups.iter().rev().fold(0, |number, &group| (number << 7) | u32::from(group & 127))
    }

    /// The stream's next bytes, with their length before them.
    fn next_bytes<'a>(stream: &mut &'a [u8]) -> &'a [u8] {
        let length = next_number(stream) as usize;
        let (bytes, rest) = stream.split_at(length);
        *stream = rest;
        bytes
    }

    fn word_of(bytes: &[u8]) -> u32 {
        u32::from_le_bytes(bytes.try_into().expect("four bytes are a word"))
    }

    /// The whole words, low byte first. A remainder is dropped.
    fn words_of(bytes: &[u8]) -> Vec<u32> {
        bytes.chunks_exact(4).map(word_of).collect()
    }

    /// The stream's next call: five numbers, the image, and what a job has behind it.
    fn next_call<'a>(stream: &mut &'a [u8]) -> Call<'a> {
        let [job, phase, budget, table_words, output_length] = std::array::from_fn(|_| next_number(stream));
        let image = next_bytes(stream);
        let mut behind = |jobs: &[u32]| if jobs.contains(&job) { next_bytes(stream) } else { &[] };
        let recording = behind(&[SCAN]);
        let summary = words_of(behind(&[USES, REPLACE]));
        let part = behind(&[REPLACE]);
        let (table_words, output_length) = (table_words as usize, output_length as usize);
        Call { job, phase, budget, table_words, output_length, image, recording, summary, part }
    }

    fn put_words(words: &[u32], output: &mut [u8]) {
        for (bytes, word) in output.chunks_exact_mut(4).zip(words) {
            bytes.copy_from_slice(&word.to_le_bytes());
        }
    }

    /// The panel check and the summary, with the output lent as whole words. A remainder is not lent.
    fn ask_words(call: &Call, output: &mut [u8]) -> Result<Answer, Refusal> {
        let mut lent = words_of(output);
        let job = if call.job == PANEL { panel } else { summary };
        let written = job(call.image, &mut lent).map(<[u32]>::to_vec);
        put_words(&lent, output);
        let written = written?;
        assert_eq!(written, lent[..written.len()], "what is written is the front of the words lent");
        Ok(Answer { units: 0, name: 0, length: 4 * written.len() })
    }

    /// A question writes nothing: its two numbers are put where the line has what was written.
    fn ask_uses(call: &Call, output: &mut [u8]) -> Result<Answer, Refusal> {
        let told = uses(call.image, &call.summary, call.phase)?;
        put_words(&[told.count, told.first], output);
        Ok(Answer { units: 0, name: 0, length: 8 })
    }

    /// The other jobs that take no budget, of which a successful answer is what they have written.
    fn ask_unbudgeted(call: &Call, output: &mut [u8], words: &mut [u32]) -> Result<Answer, Refusal> {
        let length = match call.job {
            REPLACE => replace(call.image, call.phase, call.part, words, output)?.len(),
            SCAN => scan(call.image, call.recording, output)?.text().len(),
            READ => read(call.image, output)?.len(),
            PRINT => print(call.image, output)?.len(),
            SHRINK => shrink(call.image, output)?.len(),
            job => panic!("there is no job {job}"),
        };
        Ok(Answer { units: 0, name: 0, length })
    }

    fn ask(call: &Call, table: &mut [u32], output: &mut [u8], words: &mut [u32]) -> Result<Answer, Refusal> {
        match call.job {
            0 => resolve(call.image, call.phase, call.budget, table),
            1 => expand(call.image, call.phase, call.budget, table, output),
            2 => parse(call.image, call.budget, table, output),
            3 => evaluate(call.image, call.budget, table, output),
            PANEL | SUMMARY => ask_words(call, output),
            USES => ask_uses(call, output),
            _ => ask_unbudgeted(call, output, words),
        }
    }

    fn all_are<T: PartialEq>(value: T, elements: &[T]) -> bool {
        elements.iter().all(|element| *element == value)
    }

    fn table_column(table: &[u32], budget: u32) -> &'static str {
        let cleared = WORDS_PER_UNIT * budget as usize;
        if all_are(TABLE_FILL, table) {
            "kept"
        } else if cleared <= table.len() && all_are(0, &table[..cleared]) && all_are(TABLE_FILL, &table[cleared..]) {
            "clear"
        } else {
            "bad"
        }
    }

    fn output_column(output: &[u8], length: usize) -> String {
        let (written, behind) = output.split_at(length);
        let hexadecimal: String = written.iter().map(|byte| format!("{byte:02x}")).collect();
        let shown = if written.is_empty() { "-" } else { &hexadecimal };
        let touched = if all_are(OUTPUT_FILL, behind) { "" } else { "!" };
        format!("{shown}{touched}")
    }

    fn hexadecimal_of(words: &[u32]) -> String {
        words.iter().flat_map(|word| word.to_le_bytes()).map(|byte| format!("{byte:02x}")).collect()
    }

    /// The column that a replacement has more: the new summary up to the last name, with `!` where a word behind it has changed.
    fn summary_column(call: &Call, succeeded: bool, words: &[u32]) -> String {
        let written = if succeeded { 2 + 2 * words[1] as usize } else { 0 };
        let shown = if succeeded { hexadecimal_of(&words[..written]) } else { "-".to_string() };
        let touched = if words[written..] == call.summary[written..] { "" } else { "!" };
        format!(" {shown}{touched}")
    }

    /// A question has two words to be put into, whatever the call says.
    fn output_length(call: &Call) -> usize {
        if call.job == USES { 8 } else { call.output_length }
    }

    const NONE: Rivals = Rivals { first: 0, second: 0 };

    /// The line that answers a call. Name and length of a refusal are 0, and so are the two bindings where none compete: this crate does not hand
    /// them on.
    fn line_of(call: &Call) -> String {
        let mut table = vec![TABLE_FILL; call.table_words];
        let mut output = vec![OUTPUT_FILL; output_length(call)];
        let mut words = call.summary.clone();
        let (code, units, name, length, rivals) = match ask(call, &mut table, &mut output, &mut words) {
            Ok(Answer { units, name, length }) => (0, units, name, length, NONE),
            Err(Refusal { code, units, rivals }) => (code.number(), units, 0, 0, rivals.unwrap_or(NONE)),
        };
        let Rivals { first, second } = rivals;
        let (table, output) = (table_column(&table, call.budget), output_column(&output, length));
        let after = if call.job == REPLACE { summary_column(call, code == 0, &words) } else { String::new() };
        format!("{code} {units} {name} {length} {first} {second} {table} {output}{after}")
    }

    /// The slice's stream and its kept lines.
    fn slice() -> (Vec<u8>, String) {
        let folder = env!("CARGO_TARGET_TMPDIR");
        let maker = concat!(env!("CARGO_MANIFEST_DIR"), "/../../tests/slice");
        assert!(Command::new(maker).arg(folder).status().expect("python3 runs it").success());
        let stream = std::fs::read(format!("{folder}/stdin")).expect("it writes the stream");
        let lines = std::fs::read_to_string(format!("{folder}/stdout")).expect("it writes the lines");
        (stream, lines)
    }

    #[test]
    fn every_answer_is_the_kept_one() {
        let (stream, lines) = slice();
        let mut rest = &stream[..];
        for (place, line) in lines.lines().enumerate() {
            assert_eq!(line_of(&next_call(&mut rest)), line, "call {place}");
        }
        assert!(rest.is_empty(), "every call has a line");
    }
}

#[cfg(not(target_arch = "x86_64"))]
#[test]
#[ignore = "the archive links only into x86-64 programs"]
fn the_library_is_for_x86_64() {}
