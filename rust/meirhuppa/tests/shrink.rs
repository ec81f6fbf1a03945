//! Smaller images: what goes, what stays, and the refusals. The archive is for x86-64, so elsewhere this says so and tests nothing.

#[cfg(target_arch = "x86_64")]
mod on_x86_64 {
    use meirhuppa::{expand, parse, read, shrink, Code, Refusal, MOST_IMAGE, WORDS_PER_UNIT};

    const FILL: u8 = 0x5a;
    const BUDGET: u32 = 4096;

    /// (lambda x{3} (x{3} (syntax x{5}))) with seven scopes; x{2}, x{3} and x{5} are bound.
    const BEFORE: [u8; 64] = [
        1, 2, 1, 0x78, 1, 0x79, 1, 7, 3, 4, 5, 1, 2, 4, 6, 1, 3, 4, 4, 1, 5, 5, 0, 0, 0, 3, 0, 0, 0, 0, 0, 0, 1, 3, 0, 0, 4, 5, 0, 0, 0, 2, 0, 1, 3,
        0, 0, 4, 5, 0, 0, 0, 2, 0, 0, 0, 0, 3, 0, 1, 5, 0, 0, 4,
    ];

    /// The smaller image, in an output that keeps what is behind it.
    fn smaller(image: &[u8]) -> Vec<u8> {
        let mut output = vec![FILL; image.len() + 3];
        let made = shrink(image, &mut output).expect("it is made smaller").to_vec();
        assert!(output[made.len()..].iter().all(|&byte| byte == FILL));
        made
    }

    /// The code of a refusal, which leaves the output as it was.
    fn refused(image: &[u8], room: usize) -> Code {
        let mut output = vec![FILL; room];
        let refusal = shrink(image, &mut output).expect_err("it is refused");
        assert_eq!(refusal, Refusal { code: refusal.code, units: 0, rivals: None });
        assert!(output.iter().all(|&byte| byte == FILL));
        refusal.code
    }

    fn parsed(image: &[u8]) -> (u32, Vec<u8>) {
        let mut table = vec![0; WORDS_PER_UNIT * BUDGET as usize];
        let mut output = vec![FILL; MOST_IMAGE];
        let answer = parse(image, BUDGET, &mut table, &mut output).expect("it is parsed");
        (answer.units, output[..answer.length].to_vec())
    }

    fn expanded(text: &str) -> Vec<u8> {
        let mut table = vec![0; WORDS_PER_UNIT * BUDGET as usize];
        let (mut image, mut output) = (vec![FILL; MOST_IMAGE], vec![FILL; MOST_IMAGE]);
        let image = read(text.as_bytes(), &mut image).expect("it is read");
        let answer = expand(image, 0, BUDGET, &mut table, &mut output).expect("it is expanded");
        output[..answer.length].to_vec()
    }

    #[test]
    fn a_dead_binding_and_its_scope_go() {
        let after = smaller(&BEFORE);
        // two scopes and two bindings: x{1} to 6, x{2} to 4
        assert_eq!(after[7..17], [2, 2, 4, 6, 1, 1, 4, 4, 1, 2]);
        assert_eq!(after.len(), BEFORE.len() - 4);
        assert_eq!(smaller(&after), after, "twice changes nothing more");
        assert_eq!(parsed(&after).0, parsed(&BEFORE).0, "the same units");
    }

    #[test]
    fn an_expanded_panel_is_smaller_and_the_same_tree() {
        let image = expanded(include_str!("../../../examples/mixing-plant.text"));
        let made = smaller(&image);
        assert!(made.len() < image.len());
        let (units, tree) = parsed(&image);
        let (same_units, same_tree) = parsed(&made);
        assert_eq!(units, same_units);
        // the trees differ in how many scopes they declare, and in nothing else: no syntax value is in them
        assert_eq!(tree.len(), same_tree.len());
        assert_eq!(tree.iter().zip(&same_tree).filter(|(a, b)| a != b).count(), 1);
    }

    #[test]
    fn refusals_leave_the_output() {
        assert_eq!(refused(&[], 8), Code::Layout);
        assert_eq!(refused(&[2, 0, 0, 0, 3, 1, 1], 8), Code::WrongKind);
        assert_eq!(refused(&vec![0; MOST_IMAGE + 1], 8), Code::OverLimit);
        let long = smaller(&BEFORE).len();
        assert_eq!(refused(&BEFORE, long - 1), Code::TooLong);
        assert_eq!(refused(&BEFORE, 0), Code::TooLong);
    }
}

#[cfg(not(target_arch = "x86_64"))]
#[test]
#[ignore = "the archive links only into x86-64 programs"]
fn the_library_is_for_x86_64() {}
