//! The examples' recordings, from a text to lines, and the refusals of the scan runner. The archive is for x86-64, so elsewhere this says so and
//! tests nothing.

#[cfg(target_arch = "x86_64")]
mod on_x86_64 {
    use meirhuppa::{expand, parse, read, scan, Code, Refusal, MOST_LINE, WORDS_PER_UNIT};

    const FILL: u8 = 0x5a;
    const BUDGET: usize = 1024;
    const POINTS: u16 = 1024;

    /// The tree image of a text.
    fn tree_of(text: &[u8]) -> Vec<u8> {
        let mut table = vec![0; WORDS_PER_UNIT * BUDGET];
        let (mut typed, mut expanded, mut tree) = (vec![0; 65536], vec![0; 65536], vec![0; 65536]);
        let image = read(text, &mut typed).expect("it is read");
        let first = expand(image, 0, BUDGET as u32, &mut table, &mut expanded).expect("it expands");
        let second = parse(&expanded[..first.length], BUDGET as u32, &mut table, &mut tree).expect("it parses");
        tree.truncate(second.length);
        tree
    }

    /// The lines of a recording, in an output that keeps what is behind them.
    fn lines_of(tree: &[u8], recording: &[u8]) -> Vec<String> {
        let mut output = vec![FILL; 1000];
        let lines = scan(tree, recording, &mut output).expect("it is accepted");
        let (length, given) = (lines.text().len(), lines.map(str::to_string).collect());
        assert!(output[length..].iter().all(|&byte| byte == FILL));
        given
    }

    /// The code of a refusal, which leaves the output as it was.
    fn refused(tree: &[u8], recording: &[u8], room: usize) -> Code {
        let mut output = vec![FILL; room];
        let refusal = scan(tree, recording, &mut output).expect_err("it is refused");
        assert_eq!(refusal, Refusal { code: refusal.code, units: 0, rivals: None });
        assert!(output.iter().all(|&byte| byte == FILL));
        refusal.code
    }

    fn start_stop() -> Vec<u8> {
        tree_of(include_bytes!("../../../examples/start-stop.text"))
    }

    /// A number below 16,384 in groups of seven bits.
    fn number(value: u16) -> Vec<u8> {
        if value < 128 {
            vec![value as u8]
        } else {
            vec![value as u8 | 128, (value >> 7) as u8]
        }
    }

    /// A tree that drives every point there is, each by itself.
    fn every_point() -> Vec<u8> {
        let rung = |point| [&[1, 3, 3, 4, 3, 3, 2], &number(point)[..], &[3, 2], &number(point)[..]].concat();
        let rungs = (0..POINTS).flat_map(rung).collect::<Vec<u8>>();
        [&[2, 0, 0, 0, 1], &number(POINTS + 1)[..], &[3, 4, 5], &rungs].concat()
    }

    #[test]
    fn the_feeder_stays_still_while_the_fan_runs() {
        let tree = tree_of(include_bytes!("../../../examples/feeder-and-fan.text"));
        let lines = lines_of(&tree, include_bytes!("../../../examples/feeder-and-fan.recording"));
        assert_eq!(lines.len(), 8);
        assert_eq!(lines[1], "2 @10=1 @13=0");
        assert_eq!(lines[3], "4 @10=0 @13=1");
    }

    #[test]
    fn the_seal_in_holds() {
        let lines = lines_of(&start_stop(), include_bytes!("../../../examples/start-stop.recording"));
        let values: String = lines.iter().map(|line| line.chars().last().expect("a value")).collect();
        assert_eq!(values, "011100011");
        assert_eq!(lines[8], "9 @10=1");
    }

    #[test]
    fn lines_come_one_by_one() {
        let mut output = [FILL; 16];
        let mut lines = scan(&start_stop(), &[2, 0, 1, 1, 1], &mut output).expect("just enough room");
        assert_eq!(lines.text(), "1 @10=0\n2 @10=1\n");
        assert_eq!(lines.next(), Some("1 @10=0"));
        assert_eq!(lines.text(), "2 @10=1\n");
        assert_eq!(lines.next(), Some("2 @10=1"));
        assert_eq!((lines.next(), lines.next()), (None, None));
        assert_eq!(refused(&start_stop(), &[2, 0, 1, 1, 1], 15), Code::TooLong);
    }

    #[test]
    fn no_scans_are_no_lines() {
        assert_eq!(scan(&start_stop(), &[0], &mut []).expect("no room is enough").count(), 0);
    }

    #[test]
    fn no_line_is_longer_than_the_longest() {
        let mut output = vec![FILL; MOST_LINE];
        let lines = scan(&every_point(), &[1, 0], &mut output).expect("it is accepted");
        assert_eq!(lines.text().len(), MOST_LINE - "65533".len() + "1".len());
    }

    #[test]
    fn refusals_have_their_code() {
        let tree = start_stop();
        assert_eq!(refused(&tree, &[], 9), Code::BadRecording);
        assert_eq!(refused(&tree, &[0, 0], 9), Code::BadRecording);
        assert_eq!(refused(&tree, &[1, 1, 1, 2], 9), Code::BadRecording);
        assert_eq!(refused(&tree, &[0; 65537], 9), Code::BadRecording);
        assert_eq!(refused(&tree, &[1, 1, 10, 1], 9), Code::DrivenChange);
        assert_eq!(refused(&tree, &[1, 1, 10, 2], 9), Code::BadRecording);
        assert_eq!(refused(&tree, &[1, 1, 10, 1], 0), Code::DrivenChange);
        assert_eq!(refused(&[2, 0, 0, 0, 3, 2, 1], &[], 9), Code::OutsideProfile);
        assert_eq!(refused(&[], &[], 9), Code::Layout);
        assert_eq!(refused(&[0; 65537], &[0], 9), Code::OverLimit);
    }
}

#[cfg(not(target_arch = "x86_64"))]
#[test]
#[ignore = "the archive links only into x86-64 programs"]
fn the_library_is_for_x86_64() {}
