// The generic path written straight, to measure against: `generic WAY KIND FUNCTIONS ROWS ROUNDS`. It makes the module that the
// program `bench` makes. The ways: `make`, which reads nothing; `read`, which reads each operator with a list of its
// immediates; and `map`, which asks a hook for each index, puts the answers into a list of their own and writes the operator
// from that list. Reading and mapping go by the kinds of an operator's immediates, which are looked up by its byte.
use std::process::exit;

#[derive(Clone, Copy, PartialEq)]
enum Kind {
    Block,
    Label,
    Local,
    Function,
    Mem,
    S32,
    S64,
    Labels,
    Four,
    Eight,
    Global,
    Table,
    Memory,
    Type,
}

type Row = Option<&'static [Kind]>;

const fn rows() -> [Row; 256] {
    let mut rows: [Row; 256] = [None; 256];
    let mut at = 0;
    while at < 256 {
        rows[at] = match at {
            0x00 | 0x01 | 0x05 | 0x0b | 0x0f | 0x1a | 0x1b | 0x45..=0xc4 => Some(&[]),
            0x02..=0x04 => Some(&[Kind::Block]),
            0x0c | 0x0d => Some(&[Kind::Label]),
            0x0e => Some(&[Kind::Labels]),
            0x10 => Some(&[Kind::Function]),
            0x11 => Some(&[Kind::Type, Kind::Table]),
            0x20..=0x22 => Some(&[Kind::Local]),
            0x23 | 0x24 => Some(&[Kind::Global]),
            0x25 | 0x26 => Some(&[Kind::Table]),
            0x28..=0x3e => Some(&[Kind::Mem]),
            0x3f | 0x40 => Some(&[Kind::Memory]),
            0x41 => Some(&[Kind::S32]),
            0x42 => Some(&[Kind::S64]),
            0x43 => Some(&[Kind::Four]),
            0x44 => Some(&[Kind::Eight]),
            _ => None,
        };
        at += 1;
    }
    rows
}

static ROWS: [Row; 256] = rows();

#[derive(Clone, Copy, PartialEq)]
enum Space {
    Function,
    Global,
    Memory,
    Table,
    Type,
}

#[derive(Clone, Copy)]
enum BlockType {
    Empty,
    Value(u8),
    Type(u32),
}

struct MemArg {
    align: u8,
    memory: u32,
    offset: u64,
}

enum Imm {
    Block(BlockType),
    Label(u32),
    Labels { targets: Vec<u32>, default: u32 },
    Index(Space, u32),
    Local(u32),
    Mem(MemArg),
    S32(i32),
    S64(i64),
    Four([u8; 4]),
    Eight([u8; 8]),
}

struct Operator {
    opcode: u8,
    imms: Vec<Imm>,
}

struct Reader<'a> {
    bytes: &'a [u8],
}

impl<'a> Reader<'a> {
    fn byte(&mut self) -> Option<u8> {
        let (first, rest) = self.bytes.split_first()?;
        self.bytes = rest;
        Some(*first)
    }

    fn take(&mut self, len: usize) -> Option<&'a [u8]> {
        if len > self.bytes.len() {
            return None;
        }
        let (front, rest) = self.bytes.split_at(len);
        self.bytes = rest;
        Some(front)
    }

    fn unsigned(&mut self, bits: u32) -> Option<u64> {
        let mut number = 0u64;
        let mut shift = 0;
        loop {
            let byte = self.byte()?;
            let left = bits - shift;
            if left < 7 && byte >> left != 0 {
                return None;
            }
            number |= u64::from(byte & 127) << shift;
            if byte < 128 {
                return Some(number);
            }
            shift += 7;
            if shift >= bits {
                return None;
            }
        }
    }

    fn u32(&mut self) -> Option<u32> {
        self.unsigned(32).map(|number| number as u32)
    }

    fn signed(&mut self, bits: u32) -> Option<i64> {
        let mut number = 0i64;
        let mut shift = 0;
        loop {
            let byte = self.byte()?;
            number |= i64::from(byte & 127) << shift;
            shift += 7;
            if byte < 128 {
                if shift < 64 && byte & 64 != 0 {
                    number |= -1i64 << shift;
                }
                return Some(number);
            }
            if shift >= bits {
                return None;
            }
        }
    }

    fn imm(&mut self, kind: Kind) -> Option<Imm> {
        Some(match kind {
            Kind::Block => Imm::Block(match *self.bytes.first()? {
                0x40 => {
                    self.byte()?;
                    BlockType::Empty
                }
                byte @ 0x7b..=0x7f => {
                    self.byte()?;
                    BlockType::Value(byte)
                }
                _ => BlockType::Type(u32::try_from(self.signed(33)?).ok()?),
            }),
            Kind::Label => Imm::Label(self.u32()?),
            Kind::Labels => {
                let count = self.u32()?;
                let mut targets = Vec::new();
                for _ in 0..count {
                    targets.push(self.u32()?);
                }
                Imm::Labels { targets, default: self.u32()? }
            }
            Kind::Local => Imm::Local(self.u32()?),
            Kind::Function => Imm::Index(Space::Function, self.u32()?),
            Kind::Global => Imm::Index(Space::Global, self.u32()?),
            Kind::Memory => Imm::Index(Space::Memory, self.u32()?),
            Kind::Table => Imm::Index(Space::Table, self.u32()?),
            Kind::Type => Imm::Index(Space::Type, self.u32()?),
            Kind::Mem => {
                let flags = self.u32()?;
                let memory = if flags & 64 == 0 { 0 } else { self.u32()? };
                let offset = self.unsigned(64)?;
                Imm::Mem(MemArg { align: (flags & 63) as u8, memory, offset })
            }
            Kind::S32 => Imm::S32(i32::try_from(self.signed(32)?).ok()?),
            Kind::S64 => Imm::S64(self.signed(64)?),
            Kind::Four => Imm::Four(self.take(4)?.try_into().ok()?),
            Kind::Eight => Imm::Eight(self.take(8)?.try_into().ok()?),
        })
    }

    #[inline(never)]
    fn operator(&mut self) -> Option<Operator> {
        let opcode = self.byte()?;
        let kinds = ROWS[usize::from(opcode)]?;
        let mut imms = Vec::with_capacity(kinds.len());
        for kind in kinds {
            imms.push(self.imm(*kind)?);
        }
        Some(Operator { opcode, imms })
    }
}

fn write_unsigned(out: &mut Vec<u8>, mut n: u64) {
    while n >= 128 {
        out.push((n & 127) as u8 | 128);
        n >>= 7;
    }
    out.push(n as u8);
}

fn write_signed(out: &mut Vec<u8>, mut n: i64) {
    loop {
        let byte = (n & 127) as u8;
        n >>= 7;
        if (n == 0 && byte & 64 == 0) || (n == -1 && byte & 64 != 0) {
            out.push(byte);
            return;
        }
        out.push(byte | 128);
    }
}

fn write_imm(out: &mut Vec<u8>, imm: &Imm) {
    match imm {
        Imm::Block(BlockType::Empty) => out.push(0x40),
        Imm::Block(BlockType::Value(byte)) => out.push(*byte),
        Imm::Block(BlockType::Type(index)) => write_signed(out, i64::from(*index)),
        Imm::Label(number) | Imm::Local(number) | Imm::Index(_, number) => write_unsigned(out, u64::from(*number)),
        Imm::Labels { targets, default } => {
            write_unsigned(out, targets.len() as u64);
            for target in targets {
                write_unsigned(out, u64::from(*target));
            }
            write_unsigned(out, u64::from(*default));
        }
        Imm::Mem(arg) => {
            if arg.memory == 0 {
                out.push(arg.align);
            } else {
                write_unsigned(out, u64::from(arg.align) + 64);
                write_unsigned(out, u64::from(arg.memory));
            }
            write_unsigned(out, arg.offset);
        }
        Imm::S32(number) => write_signed(out, i64::from(*number)),
        Imm::S64(number) => write_signed(out, *number),
        Imm::Four(bytes) => out.extend_from_slice(bytes),
        Imm::Eight(bytes) => out.extend_from_slice(bytes),
    }
}

trait Hooks {
    fn index(&mut self, space: Space, index: u32) -> u32;
}

#[derive(Default)]
struct Counts {
    asked: [u64; 5],
}

impl Hooks for Counts {
    fn index(&mut self, space: Space, index: u32) -> u32 {
        self.asked[space as usize] += 1;
        index
    }
}

fn mapped<H: Hooks>(hooks: &mut H, imm: &Imm) -> Imm {
    match imm {
        Imm::Block(BlockType::Type(index)) => Imm::Block(BlockType::Type(hooks.index(Space::Type, *index))),
        Imm::Block(other) => Imm::Block(*other),
        Imm::Label(number) => Imm::Label(*number),
        Imm::Labels { targets, default } => Imm::Labels { targets: targets.clone(), default: *default },
        Imm::Index(space, index) => Imm::Index(*space, hooks.index(*space, *index)),
        Imm::Local(number) => Imm::Local(*number),
        Imm::Mem(arg) => Imm::Mem(MemArg { align: arg.align, memory: hooks.index(Space::Memory, arg.memory), offset: arg.offset }),
        Imm::S32(number) => Imm::S32(*number),
        Imm::S64(number) => Imm::S64(*number),
        Imm::Four(bytes) => Imm::Four(*bytes),
        Imm::Eight(bytes) => Imm::Eight(*bytes),
    }
}

fn add_sized(out: &mut Vec<u8>, bytes: &[u8]) {
    write_unsigned(out, bytes.len() as u64);
    out.extend_from_slice(bytes);
}

fn map_body<H: Hooks>(hooks: &mut H, mut reader: Reader, out: &mut Vec<u8>) -> Option<()> {
    if reader.u32()? != 0 {
        return None;
    }
    out.push(0);
    while !reader.bytes.is_empty() {
        let operator = reader.operator()?;
        let mut imms = Vec::with_capacity(operator.imms.len());
        for imm in &operator.imms {
            imms.push(mapped(hooks, imm));
        }
        out.push(operator.opcode);
        for imm in &imms {
            write_imm(out, imm);
        }
    }
    Some(())
}

fn read_body(mut reader: Reader) -> Option<usize> {
    if reader.u32()? != 0 {
        return None;
    }
    let mut count = 0;
    while !reader.bytes.is_empty() {
        let operator = reader.operator()?;
        count += 1 + operator.imms.len();
    }
    Some(count)
}

// How many operators and immediates were read, or how many bytes were made.
fn module<H: Hooks>(hooks: &mut H, bytes: &[u8], maps: bool) -> Option<usize> {
    let mut reader = Reader { bytes };
    let mut out = reader.take(8)?.to_vec();
    let mut count = 0;
    let mut section = Vec::new();
    let mut scratch = Vec::new();
    while let Some(id) = reader.byte() {
        let size = reader.u32()? as usize;
        let body = reader.take(size)?;
        section.clear();
        if id == 10 {
            let mut rows = Reader { bytes: body };
            let bodies = rows.u32()?;
            write_unsigned(&mut section, u64::from(bodies));
            for _ in 0..bodies {
                let len = rows.u32()? as usize;
                let body = Reader { bytes: rows.take(len)? };
                if maps {
                    scratch.clear();
                    map_body(hooks, body, &mut scratch)?;
                    add_sized(&mut section, &scratch);
                } else {
                    count += read_body(body)?;
                }
            }
        } else {
            section.extend_from_slice(body);
        }
        out.push(id);
        add_sized(&mut out, &section);
    }
    Some(if maps { out.len() } else { count })
}

const NUMBERS: [u8; 14] = [0x20, 0, 0x41, 5, 0x6a, 0x20, 1, 0x6a, 0x41, 0xe8, 7, 0x6a, 0x10, 3];
const MIXED: [u8; 32] = [
    2, 0x40, 0x20, 0, 0x28, 2, 0x10, 0x22, 1, 0x45, 0x0d, 0, 0x20, 1, 0x41, 0xe8, 7, 0x6a, 0x21, 2, 0x20, 0, 0x20, 2, 0x36, 2,
    0x0c, 0x20, 2, 0x10, 3, 0x0b,
];

fn make(mixed: bool, functions: u32, rows: u32) -> Vec<u8> {
    let mut body = vec![0];
    for _ in 0..rows {
        body.extend_from_slice(if mixed { &MIXED } else { &NUMBERS });
    }
    body.push(0x0b);
    let mut types = Vec::new();
    let mut code = Vec::new();
    write_unsigned(&mut types, u64::from(functions));
    write_unsigned(&mut code, u64::from(functions));
    for _ in 0..functions {
        types.push(0);
        add_sized(&mut code, &body);
    }
    let mut out = vec![0, 0x61, 0x73, 0x6d, 1, 0, 0, 0, 1, 4, 1, 0x60, 0, 0, 3];
    add_sized(&mut out, &types);
    out.push(10);
    add_sized(&mut out, &code);
    out
}

fn main() {
    let words: Vec<String> = std::env::args().skip(1).collect();
    let [way, kind, numbers @ ..] = words.as_slice() else { exit(2) };
    let numbers: Vec<u32> = numbers.iter().map(|word| word.parse().unwrap_or_else(|_| exit(2))).collect();
    let [functions, rows, rounds] = numbers[..] else { exit(2) };
    let made = make(kind == "mixed", functions, rows);
    let mut sum = 0;
    for _ in 0..rounds {
        let mut counts = Counts::default();
        sum += match way.as_str() {
            "make" => made.len(),
            "read" => module(&mut counts, &made, false).unwrap_or(0),
            "map" => module(&mut counts, &made, true).unwrap_or(0),
            _ => exit(2),
        };
    }
    println!("{sum}");
}
