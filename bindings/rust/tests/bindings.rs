//! What the crate gives, and each of its errors. The worked cases are tried by tools/check_bindings.
use hyssopplinth::*;
use std::convert::Infallible;

/// Two functions of one type, `add` and `sub`, exported.
const TWO: &[u8] = b"\0asm\x01\0\0\0\x01\x07\x01\x60\x02\x7f\x7f\x01\x7f\x03\x03\x02\0\0\x07\x0d\x02\x03add\0\0\x03sub\0\x01\
    \x0a\x11\x02\x07\0\x20\0\x20\x01\x6a\x0b\x07\0\x20\0\x20\x01\x6b\x0b";

/// An imported function and three defined ones, of which the first calls the last, and nothing the second.
const CALLING: &[u8] = b"\0asm\x01\0\0\0\x01\x04\x01\x60\0\0\x02\x07\x01\x01m\x01f\0\0\x03\x04\x03\0\0\0\x07\x05\x01\x01g\0\x01\
    \x0a\x0e\x03\x06\0\x10\x03\x10\0\x0b\x02\0\x0b\x02\0\x0b";

/// A component with a core module in it, which has a type and nothing else.
const NESTING: &[u8] = b"\0asm\x0d\0\x01\0\x01\x0e\0asm\x01\0\0\0\x01\x04\x01\x60\0\0";

/// A component whose component type has an alias of a core type, one scope further out.
const ALIASING: &[u8] = b"\0asm\x0d\0\x01\0\x03\x04\x01\x60\0\0\x07\x09\x01\x41\x01\x02\0\x10\x02\x01\0";

const HEAD: &[u8] = b"\0asm\x01\0\0\0";

fn with(head: &[u8], more: &[u8]) -> Vec<u8> {
    [head, more].concat()
}

#[test]
fn normal_spelling_is_its_own() {
    assert_eq!(plain(TWO).unwrap(), TWO);
    assert_eq!(plain(HEAD).unwrap(), HEAD);
    assert_eq!(plain(NESTING).unwrap(), NESTING);
    assert_eq!(reencode(CALLING, &mut RoundtripReencoder).unwrap(), CALLING);
}

#[test]
fn a_renaming_goes_by_its_last_entries() {
    let swapped = b"\x07\x0d\x02\x03add\0\x01\x03sub\0\0";
    let mut renaming: Renaming = [(Space::Function, 0, 9), (Space::Function, 1, 0), (Space::Function, 0, 1)].into_iter().collect();
    assert_eq!((renaming.len(), renaming.is_empty(), renaming.is_strict()), (3, false, false));
    assert_eq!(&rename(TWO, &renaming).unwrap()[22..37], swapped);
    renaming.set_strict(true);
    let refused = Error::Refused { space: Space::Type, index: 0 };
    assert_eq!(rename(TWO, &renaming).unwrap_err(), refused);
    assert_eq!((refused.status(), refused.to_string().as_str()), (6, "refused type 0"));
    renaming.set(Space::Type, 0, 0);
    assert_eq!(&rename(TWO, &renaming).unwrap()[22..37], swapped);
}

/// Writes down what it is asked.
#[derive(Default)]
struct Noting {
    asked: Vec<String>,
    refused: Option<(Space, u32)>,
}

impl Reencode for Noting {
    type Error = String;

    fn any_index(&mut self, space: Space, index: u32) -> Result<u32, Error<String>> {
        self.asked.push(format!("{space} {index}"));
        if self.refused == Some((space, index)) {
            return Err(Error::UserError(format!("no {space} {index}")));
        }
        Ok(index)
    }

    fn outer_type_index(&mut self, count: u32, ty: u32) -> Result<u32, Error<String>> {
        self.asked.push(format!("outer {count} {ty}"));
        Ok(ty + 200)
    }

    fn push_depth(&mut self) {
        self.asked.push("push".to_string());
    }

    fn pop_depth(&mut self) {
        self.asked.push("pop".to_string());
    }
}

#[test]
fn a_reencoder_is_asked_in_order_and_ends_with_its_refusal() {
    let mut noting = Noting::default();
    assert_eq!(reencode(CALLING, &mut noting).unwrap(), CALLING);
    let whole = ["type 0", "type 0", "type 0", "type 0", "function 1", "function 3", "function 0"];
    assert_eq!(noting.asked, whole);
    let mut noting = Noting { refused: Some((Space::Function, 3)), ..Noting::default() };
    let refused = reencode(CALLING, &mut noting).unwrap_err();
    assert_eq!(refused, Error::UserError("no function 3".to_string()));
    assert_eq!((refused.status(), refused.to_string().as_str()), (6, "no function 3"));
    assert_eq!(noting.asked, whole[..6]);
    // also as an object, and nothing is asked of bytes without a reading
    let mut noting = Noting::default();
    let reencoder: &mut dyn Reencode<Error = String> = &mut noting;
    assert_eq!(reencode(&CALLING[..20], reencoder).unwrap_err(), Error::ParseError { place: 14, by: None });
    assert!(noting.asked.is_empty());
}

#[test]
fn scopes_and_outer_indices_are_asked() {
    let mut noting = Noting::default();
    let made = reencode(ALIASING, &mut noting).unwrap();
    assert_eq!(noting.asked, ["push", "outer 1 0", "pop"]);
    // the answer takes two bytes, and so the section has one more
    assert_eq!(made.len(), ALIASING.len() + 1);
    assert_eq!(made[made.len() - 2..], [0xc8, 1]);
    let mut noting = Noting::default();
    reencode(NESTING, &mut noting).unwrap();
    assert_eq!(noting.asked, ["push", "pop"]);
    // where it is not overridden the hook of its space is asked
    struct Types;
    impl Reencode for Types {
        type Error = Infallible;
        fn type_index(&mut self, ty: u32) -> Result<u32, Error> {
            Ok(ty + 5)
        }
    }
    let made = reencode(ALIASING, &mut Types).unwrap();
    assert_eq!((made.len(), made.last()), (ALIASING.len(), Some(&5)));
}

#[test]
fn visits_are_answered_in_their_places() {
    let listed = visits(ALIASING).unwrap();
    assert_eq!((listed.len(), listed.is_empty(), listed.get(3)), (3, false, None));
    let rows: Vec<Visit> = listed.iter().collect();
    assert_eq!(rows, [Visit::Push, Visit::Outer { space: Space::Type, count: 1, index: 0 }, Visit::Pop]);
    assert_eq!(answer(ALIASING, &[7, 6, 5]).unwrap().last(), Some(&6));
    assert_eq!(answer(ALIASING, &[0, 0]), Err(Error::Miscounted { wanted: 3 }));
    assert_eq!(answer_within(CALLING, &[0; 7], 9), Err(Error::TooLarge { size: 14, ceiling: 9 }));
    assert!(visits(HEAD).unwrap().is_empty());
}

#[test]
fn functions_move_and_go() {
    let moved = renumber(TWO, &[1, 0]).unwrap();
    assert_eq!(&moved[22..37], b"\x07\x0d\x02\x03add\0\x01\x03sub\0\0");
    assert_eq!(renumber(&moved, &[1, 0]).unwrap(), TWO);
    let pruned = prune(CALLING).unwrap();
    assert_eq!(pruned.kept, [1, 3]);
    assert_eq!(prune(&pruned.bytes).unwrap(), Pruned { bytes: pruned.bytes.clone(), kept: vec![1, 2] });
    let calls = calls(CALLING).unwrap();
    assert_eq!((calls.imported(), calls.defined(), calls.roots()), (1, 3, &[1][..]));
    assert_eq!(calls.bodies().collect::<Vec<_>>(), [&[3, 0][..], &[], &[]]);
    assert_eq!((calls.of(0), calls.of(3)), (Some(&[3, 0][..]), None));
    assert_eq!(calls.as_list()[..2], [1, 6]);
}

#[test]
fn two_modules_are_one() {
    let both = merge(TWO, CALLING).unwrap();
    let calls = calls(&both).unwrap();
    assert_eq!((calls.imported(), calls.defined(), calls.roots()), (1, 5, &[1, 2, 3][..]));
    assert_eq!(merge(TWO, TWO), Err(Error::ExportClash { name: "add".to_string() }));
}

#[test]
fn each_error_has_its_status_and_text() {
    let start = with(HEAD, b"\x08\x01\0");
    let starting = with(b"\0asm\x01\0\0\0\x01\x04\x01\x60\0\0\x03\x02\x01\0", b"\x08\x01\0\x0a\x04\x01\x02\0\x0b");
    let cut = with(HEAD, b"\x0a\xff\x01\0");
    let twice = with(HEAD, b"\x03\x01\0\x03\x01\0");
    let uneven = with(HEAD, b"\x01\x04\x01\x60\0\0\x03\x02\x01\0");
    let component = b"\0asm\x0d\0\x01\0";
    let in_component = with(component, b"\x04\x08\0asm\x01\0\0\0");
    let cases: [(Error, u32, &str); 17] = [
        (plain(b"").unwrap_err(), 5, "parse error at 0"),
        (plain(&with(HEAD, b"\x01\x05")).unwrap_err(), 5, "parse error at 8"),
        (merge(TWO, b"").unwrap_err(), 5, "parse error at 0 by 2"),
        (plain(&cut).unwrap_err(), 7, "invalid code section size"),
        (merge(&cut, TWO).unwrap_err(), 7, "invalid code section size by 1"),
        (prune(component).unwrap_err(), 8, "There was a section that does not belong in a core wasm module"),
        (plain(&in_component).unwrap_err(), 9, "There was a section that does not belong in a component"),
        (plain_within(TWO, 12).unwrap_err(), 10, "too large: 13 over 12"),
        (answer(TWO, &[]).unwrap_err(), 15, "wrong number of answers: 4 are wanted"),
        (renumber(TWO, &[0, 0]).unwrap_err(), 17, "not an order at 1"),
        (prune(&start).unwrap_err(), 18, "dangling function 0"),
        (merge(TWO, &start).unwrap_err(), 18, "dangling function 0 by 2"),
        (merge(TWO, TWO).unwrap_err(), 19, "export clash add"),
        (merge(&starting, &starting).unwrap_err(), 20, "two starts"),
        (renumber(&uneven, &[0]).unwrap_err(), 115, "uneven: 1 and 0"),
        (merge(&uneven, TWO).unwrap_err(), 115, "uneven: 1 and 0 by 1"),
        (calls(&twice).unwrap_err(), 116, "repeated section 3"),
    ];
    for (error, status, text) in &cases {
        assert_eq!((error.status(), error.to_string().as_str()), (*status, *text));
    }
    let made: [(Error<Infallible>, u32, &str); 5] = [
        (Error::NoMemory, 1, "no memory"),
        (Error::BadRenaming { place: 0, space: 16, index: 1 }, 11, "bad renaming"),
        (Error::TooSmall { length: 3, count: 0 }, 16, "room too small: 3 are wanted"),
        (Error::TooSmall { length: 3, count: 2 }, 16, "room too small: 3 and 2 are wanted"),
        (Error::Unknown { status: 99 }, 99, "unknown status 99"),
    ];
    for (error, status, text) in &made {
        assert_eq!((error.status(), error.to_string().as_str()), (*status, *text));
    }
}

#[test]
fn each_call_that_makes_has_a_ceiling() {
    let large = |size, ceiling| Error::TooLarge { size, ceiling };
    assert_eq!(rename_within(TWO, &Renaming::new(), 6), Err(large(7, 6)));
    assert_eq!(reencode_within(TWO, &mut RoundtripReencoder, 6), Err(large(7, 6)));
    assert_eq!(renumber_within(TWO, &[0, 1], 6), Err(large(7, 6)));
    assert_eq!(prune_within(TWO, 6), Err(large(7, 6)));
    assert_eq!(merge_within(TWO, CALLING, 9), Err(large(10, 9)));
    assert_eq!(plain_within(TWO, 17).unwrap(), TWO);
}

#[test]
fn an_error_is_one_of_rust() {
    fn told(bytes: &[u8]) -> Result<usize, Box<dyn std::error::Error + Send + Sync>> {
        Ok(plain(bytes)?.len())
    }
    assert_eq!(told(TWO).unwrap(), TWO.len());
    assert_eq!(told(b"").unwrap_err().to_string(), "parse error at 0");
}

#[test]
fn spaces_have_numbers_and_names() {
    for (number, space) in Space::ALL.into_iter().enumerate() {
        assert_eq!(space.number() as usize, number);
        assert_eq!(Space::from_number(space.number()), Some(space));
        assert_eq!(Space::from_name(space.name()), Some(space));
    }
    assert_eq!((Space::from_number(16), Space::from_name("functions")), (None, None));
}

#[test]
fn threads_call_at_once() {
    std::thread::scope(|scope| {
        for _ in 0..4 {
            scope.spawn(|| {
                for _ in 0..200 {
                    assert_eq!(plain(TWO).unwrap(), TWO);
                    assert_eq!(prune(CALLING).unwrap().kept, [1, 3]);
                }
            });
        }
    });
}

/// An output that is longer than the first room, which is a little more than the input.
#[test]
fn room_is_made_as_it_is_wanted() {
    let exports: Vec<u8> = (0..100u8).flat_map(|name| [2, b'a' + name / 10, b'a' + name % 10, 0, 0]).collect();
    let body = with(&[100], &exports);
    // of 501 bytes
    let module = with(HEAD, &with(&[7, 0xf5, 3], &body));
    let renaming: Renaming = [(Space::Function, 0, u32::MAX)].into_iter().collect();
    let made = rename(&module, &renaming).unwrap();
    assert_eq!(made.len(), module.len() + 400);
    let listed = visits(&module).unwrap();
    assert_eq!(listed.len(), 100);
    assert_eq!(answer(&module, &[u32::MAX; 100]).unwrap(), made);
    // more visits than a first room for them has: each of 2000 bytes is a function, and a table is asked
    let segment = with(&[1, 0, 0x41, 0, 0x0b, 0xd0, 0x0f], &[0; 2000]);
    let module = with(HEAD, &with(&[9, 0xd7, 0x0f], &segment));
    assert_eq!(visits(&module).unwrap().len(), 2001);
}
