use crate::ffi::{self, ListedVisit};
use crate::{Error, Space, Visit, NO_CEILING};
use std::convert::Infallible;

/// What a reencoder does with each index.
///
/// The methods have the names of `wasm-encoder`'s, and those of core modules also their types, so an impl that overrides these can be
/// taken over. Each is asked once for each occurrence of an index, in the order of the binary. Each has a default: that of an index
/// asks [`any_index`](Reencode::any_index), which leaves it as it is, that of an outer one the method of its space, and at scopes
/// nothing is done.
///
/// An answer of `Err` ends the re-encoding, with that error: a refusal of one's own is an [`Error::UserError`], and a
/// reencoder that refuses nothing has [`Infallible`] for its `Error`.
///
/// ```
/// use hyssopplinth::{reencode, Error, Reencode};
///
/// /// Functions move behind others.
/// struct Behind {
///     count: u32,
/// }
///
/// /// There are more functions than numbers.
/// #[derive(Debug, PartialEq)]
/// struct TooMany(u32);
///
/// impl Reencode for Behind {
///     type Error = TooMany;
///
///     fn function_index(&mut self, func: u32) -> Result<u32, Error<TooMany>> {
///         func.checked_add(self.count).ok_or(Error::UserError(TooMany(func)))
///     }
/// }
///
/// // a module that starts with its function
/// let module = b"\0asm\x01\0\0\0\x01\x04\x01\x60\0\0\x03\x02\x01\0\x08\x01\0\x0a\x04\x01\x02\0\x0b";
/// let made = reencode(module, &mut Behind { count: 7 })?;
/// assert_eq!(made[18..21], [8, 1, 7]);
/// let refused = reencode(b"\0asm\x01\0\0\0\x08\x01\x01", &mut Behind { count: u32::MAX });
/// assert_eq!(refused, Err(Error::UserError(TooMany(1))));
/// # Ok::<(), Error<TooMany>>(())
/// ```
pub trait Reencode {
    /// Why an index is refused.
    type Error;

    /// The new index of any space, where the method of that space is not overridden.
    fn any_index(&mut self, space: Space, index: u32) -> Result<u32, Error<Self::Error>> {
        let _ = space;
        Ok(index)
    }

    /// The new index of a data segment.
    fn data_index(&mut self, data: u32) -> Result<u32, Error<Self::Error>> {
        self.any_index(Space::Data, data)
    }

    /// The new index of an element segment.
    fn element_index(&mut self, element: u32) -> Result<u32, Error<Self::Error>> {
        self.any_index(Space::Element, element)
    }

    /// The new index of a function.
    fn function_index(&mut self, func: u32) -> Result<u32, Error<Self::Error>> {
        self.any_index(Space::Function, func)
    }

    /// The new index of a global.
    fn global_index(&mut self, global: u32) -> Result<u32, Error<Self::Error>> {
        self.any_index(Space::Global, global)
    }

    /// The new index of a memory.
    fn memory_index(&mut self, memory: u32) -> Result<u32, Error<Self::Error>> {
        self.any_index(Space::Memory, memory)
    }

    /// The new index of a table.
    fn table_index(&mut self, table: u32) -> Result<u32, Error<Self::Error>> {
        self.any_index(Space::Table, table)
    }

    /// The new index of a tag.
    fn tag_index(&mut self, tag: u32) -> Result<u32, Error<Self::Error>> {
        self.any_index(Space::Tag, tag)
    }

    /// The new index of a type.
    fn type_index(&mut self, ty: u32) -> Result<u32, Error<Self::Error>> {
        self.any_index(Space::Type, ty)
    }

    /// The number in a data count section.
    fn data_count(&mut self, count: u32) -> Result<u32, Error<Self::Error>> {
        self.any_index(Space::DataCount, count)
    }

    /// The new index of a type of a component.
    fn component_type_index(&mut self, ty: u32) -> Result<u32, Error<Self::Error>> {
        self.any_index(Space::ComponentType, ty)
    }

    /// The new index of an instance of a component.
    fn component_instance_index(&mut self, instance: u32) -> Result<u32, Error<Self::Error>> {
        self.any_index(Space::ComponentInstance, instance)
    }

    /// The new index of a function of a component.
    fn component_func_index(&mut self, func: u32) -> Result<u32, Error<Self::Error>> {
        self.any_index(Space::ComponentFunc, func)
    }

    /// The new index of a component.
    fn component_index(&mut self, component: u32) -> Result<u32, Error<Self::Error>> {
        self.any_index(Space::Component, component)
    }

    /// The new index of a core module.
    fn module_index(&mut self, module: u32) -> Result<u32, Error<Self::Error>> {
        self.any_index(Space::Module, module)
    }

    /// The new index of a core instance.
    fn instance_index(&mut self, instance: u32) -> Result<u32, Error<Self::Error>> {
        self.any_index(Space::Instance, instance)
    }

    /// The new index of a value of a component.
    fn component_value_index(&mut self, value: u32) -> Result<u32, Error<Self::Error>> {
        self.any_index(Space::ComponentValue, value)
    }

    /// The new index of a core type, `count` scopes further out.
    fn outer_type_index(&mut self, count: u32, ty: u32) -> Result<u32, Error<Self::Error>> {
        let _ = count;
        self.type_index(ty)
    }

    /// The new index of a type of a component, `count` scopes further out.
    fn outer_component_type_index(&mut self, count: u32, ty: u32) -> Result<u32, Error<Self::Error>> {
        let _ = count;
        self.component_type_index(ty)
    }

    /// The new index of a component, `count` scopes further out.
    fn outer_component_index(&mut self, count: u32, component: u32) -> Result<u32, Error<Self::Error>> {
        let _ = count;
        self.component_index(component)
    }

    /// The new index of a core module, `count` scopes further out.
    fn outer_module_index(&mut self, count: u32, module: u32) -> Result<u32, Error<Self::Error>> {
        let _ = count;
        self.module_index(module)
    }

    /// A scope begins: a nested module or component, or a type of one or of an instance.
    fn push_depth(&mut self) {}

    /// The innermost scope ends.
    fn pop_depth(&mut self) {}
}

/// A reencoder that leaves each index as it is.
#[derive(Clone, Copy, Debug, Default)]
pub struct RoundtripReencoder;

impl Reencode for RoundtripReencoder {
    type Error = Infallible;
}

/// Re-encodes a core module or a component, by its header, with each index replaced by the reencoder's answer.
///
/// First the binary's visits are listed, so nothing is asked of bytes without a reading. Then each is asked, once and in order. Then the
/// answers are put in their places. What comes is in normal spelling, and nothing but indices changes.
///
/// # Errors
///
/// [`ParseError`](Error::ParseError), [`InvalidCodeSectionSize`](Error::InvalidCodeSectionSize),
/// [`UnexpectedNonCoreModuleSection`](Error::UnexpectedNonCoreModuleSection) and
/// [`UnexpectedNonComponentSection`](Error::UnexpectedNonComponentSection) of the bytes; then the first refusal of the reencoder;
/// [`TooLarge`](Error::TooLarge) where a frame would have 2^32 bytes or more; [`NoMemory`](Error::NoMemory) at any time.
pub fn reencode<R: Reencode + ?Sized>(bytes: &[u8], reencoder: &mut R) -> Result<Vec<u8>, Error<R::Error>> {
    reencode_within(bytes, reencoder, NO_CEILING)
}

/// [`reencode`], and no frame of the output has more than `ceiling` bytes: a section's body, a function's, a subsection's of names.
///
/// # Errors
///
/// Those of [`reencode`]; [`TooLarge`](Error::TooLarge) of the first frame above the ceiling that closes, behind each refusal.
pub fn reencode_within<R: Reencode + ?Sized>(bytes: &[u8], reencoder: &mut R, ceiling: u32) -> Result<Vec<u8>, Error<R::Error>> {
    let visits = ffi::visits(bytes).map_err(|it| it.error(ceiling))?;
    let mut answers = Vec::new();
    answers.try_reserve_exact(visits.len()).map_err(|_| Error::NoMemory)?;
    for visit in &visits {
        answers.push(ask(reencoder, visit)?);
    }
    drop(visits);
    ffi::answer(bytes, &answers, ceiling).map_err(|it| it.error(ceiling))
}

/// The answer of a visit's method. That at a scope is not looked at.
fn ask<R: Reencode + ?Sized>(reencoder: &mut R, visit: &ListedVisit) -> Result<u32, Error<R::Error>> {
    let (space, index) = match Visit::of(visit) {
        Visit::Index { space, index } => (space, index),
        Visit::Outer { space, count, index } => {
            return match space {
                Space::Type => reencoder.outer_type_index(count, index),
                Space::ComponentType => reencoder.outer_component_type_index(count, index),
                Space::Component => reencoder.outer_component_index(count, index),
                Space::Module => reencoder.outer_module_index(count, index),
                // the format has aliases of these four alone
                _ => reencoder.any_index(space, index),
            };
        }
        Visit::Push => {
            reencoder.push_depth();
            return Ok(0);
        }
        Visit::Pop => {
            reencoder.pop_depth();
            return Ok(0);
        }
    };
    match space {
        Space::Data => reencoder.data_index(index),
        Space::Element => reencoder.element_index(index),
        Space::Function => reencoder.function_index(index),
        Space::Global => reencoder.global_index(index),
        Space::Memory => reencoder.memory_index(index),
        Space::Table => reencoder.table_index(index),
        Space::Tag => reencoder.tag_index(index),
        Space::Type => reencoder.type_index(index),
        Space::DataCount => reencoder.data_count(index),
        Space::ComponentType => reencoder.component_type_index(index),
        Space::ComponentInstance => reencoder.component_instance_index(index),
        Space::ComponentFunc => reencoder.component_func_index(index),
        Space::Component => reencoder.component_index(index),
        Space::Module => reencoder.module_index(index),
        Space::Instance => reencoder.instance_index(index),
        Space::ComponentValue => reencoder.component_value_index(index),
    }
}
