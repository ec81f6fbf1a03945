//! From a text to the names of its bits, and the refusals of the panel check. The archive is for x86-64, so elsewhere this says so and tests
//! nothing.

#[cfg(target_arch = "x86_64")]
mod on_x86_64 {
    use meirhuppa::{expand, panel, parse, read, Code, Refusal, MOST_BITS, WORDS_PER_UNIT};

    const FILL: u32 = 0x5a5a_5a5a;
    const BUDGET: usize = 1024;

    /// A tree image with names up to 299, all but the core ones made.
    fn tree(root: &[u8]) -> Vec<u8> {
        [&[2, 0, 0xa8, 2, 0], root].concat()
    }

    /// A name below 16,384 takes a byte, or two.
    fn number(value: usize) -> Vec<u8> {
        if value < 128 {
            vec![value as u8]
        } else {
            vec![value as u8 | 128, (value >> 7) as u8]
        }
    }

    /// `out` of a point and point 2.
    fn rung(point: u8) -> Vec<u8> {
        vec![1, 3, 3, 4, 3, 3, 2, point, 3, 2, 2]
    }

    fn all(parts: &[Vec<u8>]) -> Vec<u8> {
        [vec![1], number(parts.len() + 1), vec![3, 4, 5], parts.concat()].concat()
    }

    /// A bit of this name that starts at 0, and sets itself.
    fn bit(name: usize) -> Vec<u8> {
        let name = number(name);
        [&[1, 2, 2], &name[..], &[1, 3, 3, 4, 4, 0], &name[..], &[0], &name[..], &[3, 1, 0]].concat()
    }

    fn bits(count: usize) -> Vec<u8> {
        all(&(0..count).map(|place| bit(place + 4)).collect::<Vec<_>>())
    }

    /// The code of a refusal, which leaves the words lent as they were.
    fn refused(image: &[u8], words: usize) -> Code {
        let mut lent = vec![FILL; words];
        let refusal = panel(image, &mut lent).expect_err("the tree is refused");
        assert_eq!(refusal, Refusal { code: refusal.code, units: 0, rivals: None });
        assert!(lent.iter().all(|&word| word == FILL));
        refusal.code
    }

    #[test]
    fn the_accident_has_two_addresses() {
        let mut table = vec![0; WORDS_PER_UNIT * BUDGET];
        let (mut typed, mut expanded, mut tree) = (vec![0; 65536], vec![0; 65536], vec![0; 65536]);
        let image = read(include_bytes!("../../../examples/accident.text"), &mut typed).expect("it is read");
        let first = expand(image, 0, BUDGET as u32, &mut table, &mut expanded).expect("it expands");
        let second = parse(&expanded[..first.length], BUDGET as u32, &mut table, &mut tree).expect("it parses");
        let mut lent = [FILL; MOST_BITS];
        assert_eq!(panel(&tree[..second.length], &mut lent), Ok(&[12, 13][..]));
        assert!(lent[2..].iter().all(|&word| word == FILL));
    }

    #[test]
    fn so_many_words_as_bits_are_enough() {
        let image = tree(&bits(3));
        assert_eq!(panel(&image, &mut [FILL; 3]), Ok(&[4, 5, 6][..]));
        assert_eq!(refused(&image, 2), Code::TooLong);
        assert_eq!(panel(&tree(&rung(1)), &mut []), Ok(&[][..]));
    }

    #[test]
    fn most_bits_are_accepted_and_one_more_is_not() {
        let names: Vec<u32> = (4..260).collect();
        assert_eq!(panel(&tree(&bits(MOST_BITS)), &mut [FILL; MOST_BITS]), Ok(&names[..]));
        assert_eq!(refused(&tree(&bits(MOST_BITS + 1)), MOST_BITS + 1), Code::TooManyBits);
    }

    #[test]
    fn refusals_have_their_code() {
        let twice = all(&[rung(1), rung(1)]);
        assert_eq!(refused(&[], 1), Code::Layout);
        assert_eq!(refused(&[0; 65537], 1), Code::OverLimit);
        assert_eq!(refused(&tree(&[0, 4]), 1), Code::Unowned);
        assert_eq!(refused(&[1, 0, 0, 0, 0], 1), Code::WrongKind);
        assert_eq!(refused(&tree(&[3, 2, 1]), 1), Code::OutsideProfile);
        assert_eq!(refused(&tree(&twice), 1), Code::DrivenTwice);
        assert_eq!(refused(&tree(&all(&[twice, vec![3, 2, 1]])), 1), Code::OutsideProfile);
    }
}

#[cfg(not(target_arch = "x86_64"))]
#[test]
#[ignore = "the archive links only into x86-64 programs"]
fn the_library_is_for_x86_64() {}
