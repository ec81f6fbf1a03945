//! The image that document 01 shows whole, through expand and parse. The archive is for x86-64, so elsewhere this says so and tests nothing.

#[cfg(target_arch = "x86_64")]
mod on_x86_64 {
    use meirhuppa::{evaluate, expand, parse, resolve, Answer, Code, Refusal, WORDS_PER_UNIT};

    const WORKED: [u8; 27] = [
        1, 1, 1, 0x78, 0, 0, 0, 5, 0, 0, 0, 3, 0, 0, 0, 0, 0, 0, 0, 0, 0, 4, 0, 0, 0, 0, 4,
    ];

    #[test]
    fn worked_image_expands_and_parses() {
        let mut table = [7u32; WORDS_PER_UNIT * 1024];
        let mut expanded = [0x5au8; 100];
        let mut tree = [0x5au8; 100];
        let first = expand(&WORKED, 0, 1024, &mut table, &mut expanded);
        assert_eq!(first, Ok(Answer { units: 8, name: 0, length: 33 }));
        assert!(table.iter().all(|&word| word == 0));
        assert!(expanded[33..].iter().all(|&byte| byte == 0x5a));
        let second = parse(&expanded[..33], 1024, &mut table, &mut tree);
        assert_eq!(second, Ok(Answer { units: 6, name: 0, length: 10 }));
        assert_eq!(tree[..10], [2, 1, 1, 0x78, 1, 1, 2, 5, 0, 5]);
        let third = evaluate(&tree[..10], 1024, &mut table, &mut expanded);
        assert_eq!(third, Ok(Answer { units: 3, name: 0, length: 10 }));
    }

    #[test]
    fn refusals_have_their_code_and_units() {
        let mut table = [0u32; WORDS_PER_UNIT * 8];
        let refused = |code| Err(Refusal { code, units: 0, rivals: None });
        assert_eq!(resolve(&[], 0, 8, &mut table), refused(Code::Layout));
        assert_eq!(resolve(&[], 3, 8, &mut table), refused(Code::NoPhase));
        assert_eq!(resolve(&[], 0, 9, &mut table), refused(Code::SmallTable));
    }
}

#[cfg(not(target_arch = "x86_64"))]
#[test]
#[ignore = "the archive links only into x86-64 programs"]
fn the_library_is_for_x86_64() {}
