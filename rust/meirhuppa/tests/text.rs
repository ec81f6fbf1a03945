//! Text in and text out: what is typed, what is printed, and the refusals of both. The archive is for x86-64, so elsewhere this says so and tests
//! nothing.

#[cfg(target_arch = "x86_64")]
mod on_x86_64 {
    use meirhuppa::{print, read, Code, Refusal, MOST_IMAGE};

    const FILL: u8 = 0x5a;

    /// The image that document 01 shows whole, of `(lambda x x)`.
    const WORKED: [u8; 27] = [1, 1, 1, 0x78, 0, 0, 0, 5, 0, 0, 0, 3, 0, 0, 0, 0, 0, 0, 0, 0, 0, 4, 0, 0, 0, 0, 4];

    const EXAMPLES: [&str; 5] = [
        include_str!("../../../examples/accident.text"),
        include_str!("../../../examples/flasher.text"),
        include_str!("../../../examples/interlock.text"),
        include_str!("../../../examples/start-stop.text"),
        include_str!("../../../examples/mixing-plant.text"),
    ];

    /// The image of a text, in an output that keeps what is behind it.
    fn image_of(text: &str) -> Vec<u8> {
        let mut output = vec![FILL; MOST_IMAGE];
        let image = read(text.as_bytes(), &mut output).expect("it is read").to_vec();
        assert!(output[image.len()..].iter().all(|&byte| byte == FILL));
        image
    }

    /// The text of an image, likewise.
    fn text_of(image: &[u8]) -> String {
        let mut output = vec![FILL; MOST_IMAGE];
        let text = print(image, &mut output).expect("it is printed").to_string();
        assert!(output[text.len()..].iter().all(|&byte| byte == FILL));
        text
    }

    /// The code of a refusal, which leaves the output as it was.
    fn refused(refusal: Refusal, output: &[u8]) -> Code {
        assert_eq!(refusal, Refusal { code: refusal.code, units: 0, rivals: None });
        assert!(output.iter().all(|&byte| byte == FILL));
        refusal.code
    }

    fn not_read(text: &[u8], room: usize) -> Code {
        let mut output = vec![FILL; room];
        refused(read(text, &mut output).expect_err("it is refused"), &output)
    }

    fn not_printed(image: &[u8], room: usize) -> Code {
        let mut output = vec![FILL; room];
        refused(print(image, &mut output).expect_err("it is refused"), &output)
    }

    #[test]
    fn the_worked_image_is_typed_and_printed() {
        assert_eq!(image_of("(lambda x x)"), WORKED);
        assert_eq!(image_of(" ( lambda\tx ; the same\r\nx)\n"), WORKED);
        assert_eq!(text_of(&WORKED), "(lambda x x)");
    }

    #[test]
    fn every_kind_of_thing_comes_back() {
        for text in ["()", "0", "4294967295", "@1023", "#6", "#9", "('and 'or 'not 'out 'set 'all '6 '15)", "(quote (x () (y x)))"] {
            assert_eq!(text_of(&image_of(text)), text);
        }
    }

    #[test]
    fn examples_are_read_back_the_same() {
        for text in EXAMPLES {
            let image = image_of(text);
            assert_eq!(image_of(&text_of(&image)), image);
        }
    }

    #[test]
    fn just_enough_output_is_enough() {
        assert_eq!(read(b"(lambda x x)", &mut [FILL; 27]), Ok(&WORKED[..]));
        assert_eq!(not_read(b"(lambda x x)", 26), Code::TooLong);
        assert_eq!(print(&WORKED, &mut [FILL; 12]), Ok("(lambda x x)"));
        assert_eq!(not_printed(&WORKED, 11), Code::TooLong);
    }

    #[test]
    fn texts_may_be_longer_than_images() {
        let million = 1_000_000;
        assert_eq!(not_read(&vec![b'('; million], 9), Code::Unbalanced);
        assert_eq!(not_read(&[vec![b'('; million], vec![b')'; million]].concat(), 9), Code::OverLimit);
        assert_eq!(not_read(&vec![b' '; million], 9), Code::BadText);
        assert_eq!(image_of(&("(lambda x x);".to_string() + &"x".repeat(million))), WORKED);
    }

    #[test]
    fn refusals_have_their_code() {
        for bad in ["", "; nothing", "x y", "() (", "x (", "01", "@", "#x", "'nand", "'5", "'16", "\u{e4}"] {
            assert_eq!(not_read(bad.as_bytes(), 99), Code::BadText, "{bad}");
        }
        for unbalanced in [")", "(", "(x", "x)", "() )", ") x y", "((x)"] {
            assert_eq!(not_read(unbalanced.as_bytes(), 99), Code::Unbalanced, "{unbalanced}");
        }
        for over in ["4294967296", "@1024", "#10", "a-word-of-more-than-thirty-2-bytes"] {
            assert_eq!(not_read(over.as_bytes(), 99), Code::OverLimit, "{over}");
        }
        assert_eq!(not_printed(&[], 9), Code::Layout);
        assert_eq!(not_printed(&[0; 65537], 9), Code::OverLimit);
        assert_eq!(not_printed(&[2, 0, 0, 0, 3, 1, 9], 9), Code::WrongKind);
    }
}

#[cfg(not(target_arch = "x86_64"))]
#[test]
#[ignore = "the archive links only into x86-64 programs"]
fn the_library_is_for_x86_64() {}
