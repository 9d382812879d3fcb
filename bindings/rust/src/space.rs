use std::fmt;

/// An index space, with the number that it has in the library for C.
#[derive(Clone, Copy, Debug, PartialEq, Eq, PartialOrd, Ord, Hash)]
#[repr(u32)]
pub enum Space {
    /// Data segments.
    Data = 0,
    /// Element segments.
    Element = 1,
    /// Functions of core modules.
    Function = 2,
    /// Globals.
    Global = 3,
    /// Memories.
    Memory = 4,
    /// Tables.
    Table = 5,
    /// Tags.
    Tag = 6,
    /// Types of core modules, and core types of components.
    Type = 7,
    /// The number in a data count section.
    DataCount = 8,
    /// Types of components.
    ComponentType = 9,
    /// Instances of components.
    ComponentInstance = 10,
    /// Functions of components.
    ComponentFunc = 11,
    /// Components.
    Component = 12,
    /// Core modules in components.
    Module = 13,
    /// Core instances in components.
    Instance = 14,
    /// Values of components.
    ComponentValue = 15,
}

impl Space {
    /// All spaces, by their numbers.
    pub const ALL: [Space; 16] = [
        Space::Data,
        Space::Element,
        Space::Function,
        Space::Global,
        Space::Memory,
        Space::Table,
        Space::Tag,
        Space::Type,
        Space::DataCount,
        Space::ComponentType,
        Space::ComponentInstance,
        Space::ComponentFunc,
        Space::Component,
        Space::Module,
        Space::Instance,
        Space::ComponentValue,
    ];

    /// The space with this number.
    pub fn from_number(number: u32) -> Option<Space> {
        Space::ALL.get(usize::try_from(number).ok()?).copied()
    }

    /// The number of the space, 0 to 15.
    pub fn number(self) -> u32 {
        self as u32
    }

    /// The name of the space, as the program has it in a renaming and in what it says.
    pub fn name(self) -> &'static str {
        match self {
            Space::Data => "data",
            Space::Element => "element",
            Space::Function => "function",
            Space::Global => "global",
            Space::Memory => "memory",
            Space::Table => "table",
            Space::Tag => "tag",
            Space::Type => "type",
            Space::DataCount => "data_count",
            Space::ComponentType => "component_type",
            Space::ComponentInstance => "component_instance",
            Space::ComponentFunc => "component_func",
            Space::Component => "component",
            Space::Module => "module",
            Space::Instance => "instance",
            Space::ComponentValue => "component_value",
        }
    }

    /// The space with this name.
    pub fn from_name(name: &str) -> Option<Space> {
        Space::ALL.into_iter().find(|space| space.name() == name)
    }
}

impl fmt::Display for Space {
    fn fmt(&self, f: &mut fmt::Formatter<'_>) -> fmt::Result {
        f.write_str(self.name())
    }
}
