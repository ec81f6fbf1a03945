//! Where a bit is used: a summary beside a tree image, questions to it, and contacts replaced one after another. The archive is for x86-64, so
//! elsewhere this says so and tests nothing.

#[cfg(target_arch = "x86_64")]
mod on_x86_64 {
    use meirhuppa::{expand, parse, read, replace, summary, Code, Refusal, Summary, Uses, MOST_IMAGE, MOST_SUMMARY, WORDS_PER_UNIT};

    const FILL: u32 = 0x5a5a_5a5a;
    const BUDGET: u32 = 1024;

    /// `([4 ('set $4 ('or @1 $4))] 0)`, with five names: size 10, and name 4 is used at places 4 and 8.
    const LATCH: [u8; 28] = [2, 0, 1, 0, 1, 2, 2, 4, 1, 3, 3, 4, 4, 0, 4, 1, 3, 3, 4, 1, 3, 2, 1, 0, 4, 3, 1, 0];
    const LATCH_WORDS: [u32; 12] = [10, 5, 0, 0, 0, 0, 0, 0, 0, 0, 2, 4];
    const BIT: u32 = 4;
    /// The place of `('or @1 $4)`, and a point and a variable to stand there.
    const OR: u32 = 5;
    const POINT: [u8; 3] = [3, 2, 1];
    const VARIABLE: [u8; 2] = [0, 4];

    fn refusal(code: Code) -> Refusal {
        Refusal { code, units: 0, rivals: None }
    }

    #[test]
    fn a_summary_is_made_and_asked() {
        let latch = Summary::of(&LATCH).expect("it is a tree");
        assert_eq!(latch.words(), LATCH_WORDS);
        assert_eq!(latch.uses(&LATCH, BIT), Ok(Uses { count: 2, first: 4 }));
        assert_eq!(latch.uses(&LATCH, 0), Ok(Uses { count: 0, first: 0 }));
        assert_eq!(latch.uses(&LATCH, 5), Err(refusal(Code::NoSuchName)));
        assert_eq!(Summary::of(&LATCH[..9]), Err(refusal(Code::Layout)));
    }

    #[test]
    fn words_are_lent_exactly() {
        let mut lent = [FILL; MOST_SUMMARY];
        assert_eq!(summary(&LATCH, &mut lent), Ok(&LATCH_WORDS[..]));
        assert!(lent[12..].iter().all(|&word| word == FILL));
        assert_eq!(summary(&LATCH, &mut [FILL; 12]), Ok(&LATCH_WORDS[..]));
        let mut short = [FILL; 11];
        assert_eq!(summary(&LATCH, &mut short), Err(refusal(Code::TooLong)));
        assert_eq!(short, [FILL; 11]);
    }

    #[test]
    fn a_summary_follows_its_tree() {
        let mut kept = Summary::of(&LATCH).expect("it is a tree");
        let (mut first, mut second) = (vec![0; MOST_IMAGE], vec![0; MOST_IMAGE]);
        let relay = kept.replace(&LATCH, OR, &POINT, &mut first).expect("the contact is replaced");
        assert_eq!(kept, Summary::of(relay).expect("it is a tree"));
        assert_eq!(kept.uses(relay, BIT), Ok(Uses { count: 1, first: 4 }));
        assert_eq!(kept.uses(&LATCH, BIT), Err(refusal(Code::AnotherTree)));
        let held = kept.replace(relay, OR, &VARIABLE, &mut second).expect("and once more");
        assert_eq!(kept, Summary::of(held).expect("it is a tree"));
        assert_eq!(kept.uses(held, BIT), Ok(Uses { count: 2, first: 4 }));
    }

    #[test]
    fn refusals_leave_all_as_it_was() {
        let mut kept = Summary::of(&LATCH).expect("it is a tree");
        for (place, part, room, code) in [
            (10, &POINT[..], 60, Code::AnotherTree),
            (u32::MAX, &POINT[..], 60, Code::AnotherTree),
            (OR, &[][..], 60, Code::Layout),
            (OR, &POINT[..2], 60, Code::Layout),
            (OR, &[0, 5][..], 60, Code::Layout),
            (OR, &[0; 65537][..], 60, Code::OverLimit),
            (OR, &POINT[..], 20, Code::TooLong),
        ] {
            let mut output = vec![0x5a; room];
            assert_eq!(kept.replace(&LATCH, place, part, &mut output), Err(refusal(code)));
            assert!(output.iter().all(|&byte| byte == 0x5a));
            assert_eq!(kept.words(), LATCH_WORDS);
        }
    }

    #[test]
    fn words_from_elsewhere_are_taken_or_refused() {
        let invented = Summary::from_words([&[10, 5][..], &[u32::MAX; 10]].concat());
        assert_eq!(invented.uses(&LATCH, BIT), Ok(Uses { count: u32::MAX, first: u32::MAX }));
        for words in [vec![], vec![10, 5], LATCH_WORDS[..11].to_vec(), vec![9; 12]] {
            assert_eq!(Summary::from_words(words).uses(&LATCH, BIT), Err(refusal(Code::AnotherTree)));
        }
    }

    #[test]
    fn words_behind_the_last_name_stay() {
        let mut words = [&LATCH_WORDS[..], &[FILL; 3]].concat();
        let mut output = [0; 21];
        assert_eq!(replace(&LATCH, OR, &POINT, &mut words, &mut output).map(<[u8]>::len), Ok(21));
        assert_eq!(words, [7, 5, 0, 0, 0, 0, 0, 0, 0, 0, 1, 4, FILL, FILL, FILL]);
    }

    #[test]
    fn the_two_bits_of_the_accident_have_their_own_uses() {
        let mut table = vec![0; WORDS_PER_UNIT * BUDGET as usize];
        let (mut typed, mut expanded, mut parsed) = (vec![0; MOST_IMAGE], vec![0; MOST_IMAGE], vec![0; MOST_IMAGE]);
        let image = read(include_bytes!("../../../examples/accident.text"), &mut typed).expect("it is read");
        let first = expand(image, 0, BUDGET, &mut table, &mut expanded).expect("it expands");
        let second = parse(&expanded[..first.length], BUDGET, &mut table, &mut parsed).expect("it parses");
        let tree = &parsed[..second.length];
        let kept = Summary::of(tree).expect("it is a tree");
        assert_eq!(kept.uses(tree, 12), Ok(Uses { count: 2, first: 8 }));
        assert_eq!(kept.uses(tree, 13), Ok(Uses { count: 2, first: 26 }));
    }
}

#[cfg(not(target_arch = "x86_64"))]
#[test]
#[ignore = "the archive links only into x86-64 programs"]
fn the_library_is_for_x86_64() {}
