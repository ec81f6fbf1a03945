//! With code 6 two bindings that compete come back (request T-04), and with no other. The archive is for x86-64, so elsewhere this says so and
//! tests nothing.

#[cfg(target_arch = "x86_64")]
mod on_x86_64 {
    use meirhuppa::{expand, parse, resolve, Answer, Code, Refusal, Rivals, WORDS_PER_UNIT};

    const BUDGET: u32 = 32;

    fn table() -> Vec<u32> {
        vec![0; WORDS_PER_UNIT * BUDGET as usize]
    }

    /// A set has its count before its scopes.
    fn set(scopes: &[u8]) -> Vec<u8> {
        [&[scopes.len() as u8], scopes].concat()
    }

    /// The word x, which is 4, with this set at phase 0.
    fn x(scopes: &[u8]) -> Vec<u8> {
        [&[0], &set(scopes)[..], &[0, 0, 4]].concat()
    }

    /// An image with words x and y, made names 6 to 8, three scopes, and these bindings of x, each a target and a set.
    fn image(bindings: &[(u8, &[u8])], root: &[u8]) -> Vec<u8> {
        let rows = bindings.iter().flat_map(|&(target, scopes)| [&[4, target], &set(scopes)[..]].concat());
        let rows = rows.collect::<Vec<u8>>();
        [&[1, 2, 1, b'x', 1, b'y', 3, 3, bindings.len() as u8], &rows[..], root].concat()
    }

    /// x{1,2}; x{1} to 6, x{2} to 7.
    fn sample_3() -> Vec<u8> {
        image(&[(6, &[1]), (7, &[2])], &x(&[1, 2]))
    }

    /// The same with x{1,2} to 8, which contains both.
    fn sample_4() -> Vec<u8> {
        image(&[(6, &[1]), (8, &[1, 2]), (7, &[2])], &x(&[1, 2]))
    }

    fn ambiguous(units: u32, first: u32, second: u32) -> Result<Answer, Refusal> {
        Err(Refusal { code: Code::Ambiguous, units, rivals: Some(Rivals { first, second }) })
    }

    #[test]
    fn two_bindings_compete() {
        assert_eq!(resolve(&sample_3(), 0, BUDGET, &mut table()), ambiguous(1, 1, 2));
        assert_eq!(parse(&sample_3(), BUDGET, &mut table(), &mut [0; 100]), ambiguous(2, 1, 2));
    }

    #[test]
    fn the_larger_set_does_not_win() {
        let wrong_turn = image(&[(6, &[1, 2]), (7, &[3])], &x(&[1, 2, 3]));
        assert_eq!(resolve(&wrong_turn, 0, BUDGET, &mut table()), ambiguous(1, 1, 2));
    }

    /// `(lambda x{1} (lambda x{2} x{1,2}))` binds x{1,4} and x{2,4,5}. The image's x{2} stands between them, contained in the last.
    #[test]
    fn bindings_just_made_have_their_places_too() {
        let lambda = |binder: &[u8], body: &[u8]| [&[5, 0, 0, 0, 3, 0, 0, 0, 0, 0], binder, body].concat();
        let root = lambda(&x(&[1]), &lambda(&x(&[2]), &x(&[1, 2])));
        assert_eq!(expand(&image(&[(6, &[2])], &root), 0, BUDGET, &mut table(), &mut [0; 100]), ambiguous(17, 1, 3));
    }

    #[test]
    fn no_other_answer_has_rivals() {
        assert_eq!(resolve(&sample_4(), 0, BUDGET, &mut table()), Ok(Answer { units: 1, name: 8, length: 0 }));
        let none = Err(Refusal { code: Code::NoMeaning, units: 2, rivals: None });
        assert_eq!(expand(&image(&[], &x(&[])), 0, BUDGET, &mut table(), &mut [0; 100]), none);
    }

    #[test]
    fn six_words_come_back_by_value() {
        #[repr(C)]
        #[derive(Debug, PartialEq)]
        struct Six([u32; 6]);
        extern "C" {
            fn meirhuppa_resolve(
                image: *const u8,
                image_length: usize,
                phase: u32,
                budget: u32,
                table: *mut u32,
                table_words: usize,
            ) -> Six;
        }
        let given = |image: &[u8]| {
            let mut table = table();
            // SAFETY: slices are good for their length and do not overlap.
            unsafe { meirhuppa_resolve(image.as_ptr(), image.len(), 0, BUDGET, table.as_mut_ptr(), table.len()) }
        };
        assert_eq!(given(&sample_3()), Six([6, 1, 0, 0, 1, 2]));
        assert_eq!(given(&sample_4()), Six([0, 1, 8, 0, 0, 0]));
        assert_eq!(given(&[]), Six([1, 0, 0, 0, 0, 0]));
    }
}

#[cfg(not(target_arch = "x86_64"))]
#[test]
#[ignore = "the archive links only into x86-64 programs"]
fn the_library_is_for_x86_64() {}
