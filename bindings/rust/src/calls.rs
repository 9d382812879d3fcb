/// Which functions a core module asks for, as [`calls`](crate::calls) lists them: of each as often as it is asked for, in order.
///
/// ```
/// use hyssopplinth::calls;
///
/// // a function that is exported and calls itself
/// let module = b"\0asm\x01\0\0\0\x01\x04\x01\x60\0\0\x03\x02\x01\0\x07\x05\x01\x01f\0\0\x0a\x06\x01\x04\0\x10\0\x0b";
/// let calls = calls(module)?;
/// assert_eq!((calls.imported(), calls.defined()), (0, 1));
/// assert_eq!((calls.roots(), calls.of(0)), (&[0][..], Some(&[0][..])));
/// # Ok::<(), hyssopplinth::Error>(())
/// ```
#[derive(Clone, Debug, PartialEq, Eq)]
pub struct Calls {
    /// The number of imported functions, the offsets of the parts, and the parts.
    pub(crate) list: Vec<u32>,
}

impl Calls {
    /// How many functions are imported: those of the indices below it.
    pub fn imported(&self) -> u32 {
        self.list[0]
    }

    /// How many functions are defined.
    pub fn defined(&self) -> usize {
        self.list[1] as usize - 3
    }

    /// The functions that an export, the start, an element segment or an initial value asks for.
    pub fn roots(&self) -> &[u32] {
        self.part(0)
    }

    /// What the body of a defined function asks for, by calls, references and any other operator; the function is counted from 0
    /// behind the imported ones. None where there is no such function.
    pub fn of(&self, function: usize) -> Option<&[u32]> {
        (function < self.defined()).then(|| self.part(function + 1))
    }

    /// What each body asks for, in the order of the defined functions.
    pub fn bodies(&self) -> impl ExactSizeIterator<Item = &[u32]> + '_ {
        (0..self.defined()).map(|function| self.part(function + 1))
    }

    /// The list as the library gives it: see `reencode_calls` of the library for C.
    pub fn as_list(&self) -> &[u32] {
        &self.list
    }

    fn part(&self, place: usize) -> &[u32] {
        &self.list[self.list[place + 1] as usize..self.list[place + 2] as usize]
    }
}
