// A straight re-encoder of whole core modules in Rust, to measure against: it does what `reencode [-x] plain | rename FILE` does,
// without proofs. It decodes each number and operator, asks a hook for each index, and writes the shortest spelling.
use std::fmt::Write as _;
use std::io::{Read, Write};
use std::process::exit;

const SPACES: [&str; 9] = ["function", "table", "type", "memory", "global", "tag", "data", "element", "data_count"];
pub const FUNCTION: usize = 0;
const TABLE: usize = 1;
const TYPE: usize = 2;
const MEMORY: usize = 3;
const GLOBAL: usize = 4;
const TAG: usize = 5;
const DATA: usize = 6;
const ELEMENT: usize = 7;
const DATA_COUNT: usize = 8;

pub trait Hooks {
    fn index(&mut self, space: usize, index: u32) -> u32;
    fn section(&mut self);
}

#[derive(Default)]
pub struct Counts {
    indices: [u64; 9],
    sections: u64,
}

pub struct Same(pub Counts);

impl Hooks for Same {
    #[inline]
    fn index(&mut self, space: usize, index: u32) -> u32 {
        self.0.indices[space] += 1;
        index
    }

    fn section(&mut self) {
        self.0.sections += 1;
    }
}

/// A table of answers for each space; past its end an index is its own answer.
pub struct Renamed(pub Counts, pub [Vec<u32>; 9]);

impl Hooks for Renamed {
    #[inline]
    fn index(&mut self, space: usize, index: u32) -> u32 {
        self.0.indices[space] += 1;
        self.1[space].get(index as usize).copied().unwrap_or(index)
    }

    fn section(&mut self) {
        self.0.sections += 1;
    }
}

#[inline]
fn put(out: &mut Vec<u8>, mut n: u64) {
    while n >= 128 {
        out.push((n & 127) as u8 | 128);
        n >>= 7;
    }
    out.push(n as u8);
}

#[inline]
fn put_signed(out: &mut Vec<u8>, mut n: i64) {
    loop {
        let byte = (n & 127) as u8;
        n >>= 7;
        if (n == 0 && byte & 64 == 0) || (n == -1 && byte & 64 != 0) {
            out.push(byte);
            return;
        }
        out.push(byte | 128);
    }
}

struct Reader<'a> {
    bytes: &'a [u8],
}

impl<'a> Reader<'a> {
    #[inline]
    fn byte(&mut self) -> Option<u8> {
        let (first, rest) = self.bytes.split_first()?;
        self.bytes = rest;
        Some(*first)
    }

    fn peek(&self) -> Option<u8> {
        self.bytes.first().copied()
    }

    #[inline]
    fn take(&mut self, len: usize) -> Option<&'a [u8]> {
        if len > self.bytes.len() {
            return None;
        }
        let (front, rest) = self.bytes.split_at(len);
        self.bytes = rest;
        Some(front)
    }

    fn frame(&mut self) -> Option<Reader<'a>> {
        let len = self.u32()? as usize;
        Some(Reader { bytes: self.take(len)? })
    }

    #[inline]
    fn u32(&mut self) -> Option<u32> {
        let byte = self.byte()?;
        if byte < 128 {
            return Some(u32::from(byte));
        }
        let mut number = u32::from(byte & 127);
        let mut shift = 7;
        loop {
            let byte = self.byte()?;
            if shift == 28 && byte > 15 {
                return None;
            }
            number |= u32::from(byte & 127) << shift;
            if byte < 128 {
                return Some(number);
            }
            shift += 7;
        }
    }

    fn u64(&mut self) -> Option<u64> {
        let mut number = 0u64;
        let mut shift = 0;
        loop {
            let byte = self.byte()?;
            if shift == 63 && byte > 1 {
                return None;
            }
            number |= u64::from(byte & 127) << shift;
            if byte < 128 {
                return Some(number);
            }
            shift += 7;
        }
    }

    #[inline]
    fn signed(&mut self, bits: u32) -> Option<i64> {
        let mut number = 0i128;
        let mut shift = 0;
        loop {
            let byte = self.byte()?;
            number |= i128::from(byte & 127) << shift;
            shift += 7;
            if byte < 128 {
                if byte & 64 != 0 {
                    number |= -1i128 << shift;
                }
                let bound = 1i128 << (bits - 1);
                return (-bound <= number && number < bound).then_some(number as i64);
            }
            if shift >= bits {
                return None;
            }
        }
    }
}

fn add_sized(out: &mut Vec<u8>, bytes: &[u8]) {
    put(out, bytes.len() as u64);
    out.extend_from_slice(bytes);
}

fn is_number_type(byte: u8) -> bool {
    (0x7b..=0x7f).contains(&byte)
}

fn is_abstract(byte: u8) -> bool {
    (0x68..=0x75).contains(&byte)
}

pub struct Mapper<'h, H: Hooks> {
    pub hooks: &'h mut H,
}

impl<H: Hooks> Mapper<'_, H> {
    #[inline]
    fn index(&mut self, space: usize, r: &mut Reader, out: &mut Vec<u8>) -> Option<()> {
        let index = r.u32()?;
        put(out, u64::from(self.hooks.index(space, index)));
        Some(())
    }

    fn type_index(&mut self, r: &mut Reader, out: &mut Vec<u8>) -> Option<()> {
        let index = u32::try_from(r.signed(33)?).ok()?;
        put_signed(out, i64::from(self.hooks.index(TYPE, index)));
        Some(())
    }

    fn name(&mut self, r: &mut Reader, out: &mut Vec<u8>) -> Option<()> {
        let name = r.frame()?.bytes;
        std::str::from_utf8(name).ok()?;
        add_sized(out, name);
        Some(())
    }

    fn heap(&mut self, r: &mut Reader, out: &mut Vec<u8>) -> Option<()> {
        match r.peek()? {
            first if is_abstract(first) => out.push(r.byte()?),
            0x65 => {
                out.push(r.byte()?);
                let second = r.byte()?;
                if !is_abstract(second) {
                    return None;
                }
                out.push(second);
            }
            0x62 => {
                out.push(r.byte()?);
                self.index(TYPE, r, out)?;
            }
            _ => self.type_index(r, out)?,
        }
        Some(())
    }

    fn val(&mut self, r: &mut Reader, out: &mut Vec<u8>) -> Option<()> {
        match r.peek()? {
            first if is_number_type(first) => out.push(r.byte()?),
            _ => self.reference(r, out)?,
        }
        Some(())
    }

    fn reference(&mut self, r: &mut Reader, out: &mut Vec<u8>) -> Option<()> {
        match r.peek()? {
            0x63 => {
                r.byte()?;
                match r.peek()? {
                    second if is_abstract(second) || second == 0x65 => self.heap(r, out),
                    _ => {
                        out.push(0x63);
                        self.heap(r, out)
                    }
                }
            }
            0x64 => {
                out.push(r.byte()?);
                self.heap(r, out)
            }
            first if is_abstract(first) || first == 0x65 => self.heap(r, out),
            _ => None,
        }
    }

    fn mutability(&mut self, most: u8, r: &mut Reader, out: &mut Vec<u8>) -> Option<()> {
        let byte = r.byte()?;
        out.push(byte);
        (byte <= most).then_some(())
    }

    fn field(&mut self, r: &mut Reader, out: &mut Vec<u8>) -> Option<()> {
        match r.peek()? {
            0x77 | 0x78 => out.push(r.byte()?),
            _ => self.val(r, out)?,
        }
        self.mutability(1, r, out)
    }

    fn many(&mut self, r: &mut Reader, out: &mut Vec<u8>, mut one: impl FnMut(&mut Self, &mut Reader, &mut Vec<u8>) -> Option<()>) -> Option<()> {
        let count = r.u32()?;
        put(out, u64::from(count));
        for _ in 0..count {
            one(self, r, out)?;
        }
        Some(())
    }

    fn composite(&mut self, r: &mut Reader, out: &mut Vec<u8>) -> Option<()> {
        if r.peek()? == 0x65 {
            out.push(r.byte()?);
        }
        for form in [0x4c, 0x4d] {
            if r.peek()? == form {
                out.push(r.byte()?);
                self.index(TYPE, r, out)?;
            }
        }
        let form = r.byte()?;
        out.push(form);
        match form {
            0x60 => {
                self.many(r, out, Self::val)?;
                self.many(r, out, Self::val)
            }
            0x5e => self.field(r, out),
            0x5f => self.many(r, out, Self::field),
            0x5d => self.type_index(r, out),
            _ => None,
        }
    }

    fn sub(&mut self, r: &mut Reader, out: &mut Vec<u8>) -> Option<()> {
        let form = r.peek()?;
        if form == 0x50 || form == 0x4f {
            r.byte()?;
            if form == 0x4f && r.peek()? == 0 {
                r.byte()?;
            } else {
                out.push(form);
                self.many(r, out, |m, r, out| m.index(TYPE, r, out))?;
            }
        }
        self.composite(r, out)
    }

    fn group(&mut self, r: &mut Reader, out: &mut Vec<u8>) -> Option<()> {
        if r.peek()? == 0x4e {
            out.push(r.byte()?);
            return self.many(r, out, Self::sub);
        }
        self.sub(r, out)
    }

    fn limits(&mut self, most: u8, r: &mut Reader, out: &mut Vec<u8>) -> Option<()> {
        let flags = r.byte()?;
        if flags > most {
            return None;
        }
        out.push(flags);
        put(out, r.u64()?);
        if flags & 1 != 0 {
            put(out, r.u64()?);
        }
        if flags & 8 != 0 {
            put(out, u64::from(r.u32()?));
        }
        Some(())
    }

    fn table_type(&mut self, r: &mut Reader, out: &mut Vec<u8>) -> Option<()> {
        self.reference(r, out)?;
        self.limits(7, r, out)
    }

    fn global_type(&mut self, r: &mut Reader, out: &mut Vec<u8>) -> Option<()> {
        self.val(r, out)?;
        self.mutability(3, r, out)
    }

    fn tag(&mut self, r: &mut Reader, out: &mut Vec<u8>) -> Option<()> {
        self.mutability(0, r, out)?;
        self.index(TYPE, r, out)
    }

    fn import(&mut self, r: &mut Reader, out: &mut Vec<u8>) -> Option<()> {
        self.name(r, out)?;
        self.name(r, out)?;
        let kind = r.byte()?;
        out.push(kind);
        match kind {
            0 | 0x20 => self.index(TYPE, r, out),
            1 => self.table_type(r, out),
            2 => self.limits(15, r, out),
            3 => self.global_type(r, out),
            4 => self.tag(r, out),
            _ => None,
        }
    }

    fn table(&mut self, r: &mut Reader, out: &mut Vec<u8>) -> Option<()> {
        if r.peek()? != 0x40 {
            return self.table_type(r, out);
        }
        out.push(r.byte()?);
        self.mutability(0, r, out)?;
        self.table_type(r, out)?;
        self.expr(r, out)
    }

    fn export(&mut self, r: &mut Reader, out: &mut Vec<u8>) -> Option<()> {
        self.name(r, out)?;
        let (kind, space) = match r.byte()? {
            0 | 0x20 => (0, FUNCTION),
            1 => (1, TABLE),
            2 => (2, MEMORY),
            3 => (3, GLOBAL),
            4 => (4, TAG),
            _ => return None,
        };
        out.push(kind);
        self.index(space, r, out)
    }

    fn element(&mut self, r: &mut Reader, out: &mut Vec<u8>) -> Option<()> {
        let flag = r.u32()?;
        if flag > 7 {
            return None;
        }
        let (active, explicit) = (flag & 1 == 0, flag & 2 != 0);
        let mut kind = Vec::new();
        if active {
            let table = if explicit { r.u32()? } else { 0 };
            let answer = self.hooks.index(TABLE, table);
            if explicit || answer != 0 {
                out.push(flag as u8 | 2);
                put(out, u64::from(answer));
                kind.push(if flag & 4 != 0 { 0x70 } else { 0 });
            } else {
                out.push(flag as u8);
            }
            self.expr(r, out)?;
        } else {
            out.push(flag as u8);
        }
        if explicit || !active {
            kind.clear();
            if flag & 4 != 0 {
                self.reference(r, &mut kind)?;
            } else {
                self.mutability(0, r, &mut kind)?;
            }
        }
        out.extend_from_slice(&kind);
        if flag & 4 != 0 {
            self.many(r, out, Self::expr)
        } else {
            self.many(r, out, |m, r, out| m.index(FUNCTION, r, out))
        }
    }

    fn segment(&mut self, r: &mut Reader, out: &mut Vec<u8>) -> Option<()> {
        let flag = r.u32()?;
        match flag {
            1 => out.push(1),
            0 | 2 => {
                let memory = if flag == 2 { r.u32()? } else { 0 };
                let answer = self.hooks.index(MEMORY, memory);
                if answer == 0 {
                    out.push(0);
                } else {
                    out.push(2);
                    put(out, u64::from(answer));
                }
                self.expr(r, out)?;
            }
            _ => return None,
        }
        add_sized(out, r.frame()?.bytes);
        Some(())
    }

    #[inline]
    fn number(&mut self, r: &mut Reader, out: &mut Vec<u8>) -> Option<()> {
        put(out, u64::from(r.u32()?));
        Some(())
    }

    #[inline]
    fn raw(&mut self, len: usize, r: &mut Reader, out: &mut Vec<u8>) -> Option<()> {
        out.extend_from_slice(r.take(len)?);
        Some(())
    }

    #[inline]
    fn memory_argument(&mut self, r: &mut Reader, out: &mut Vec<u8>) -> Option<()> {
        let flags = r.u32()?;
        if flags > 127 {
            return None;
        }
        let memory = if flags & 64 != 0 { r.u32()? } else { 0 };
        let answer = self.hooks.index(MEMORY, memory);
        if answer == 0 {
            out.push(flags as u8 & 63);
        } else {
            out.push(flags as u8 & 63 | 64);
            put(out, u64::from(answer));
        }
        put(out, r.u64()?);
        Some(())
    }

    fn block_type(&mut self, r: &mut Reader, out: &mut Vec<u8>) -> Option<()> {
        match r.peek()? {
            0x40 => out.push(r.byte()?),
            first if is_number_type(first) || is_abstract(first) || (0x63..=0x65).contains(&first) => self.val(r, out)?,
            _ => self.type_index(r, out)?,
        }
        Some(())
    }

    #[inline]
    fn operator(&mut self, r: &mut Reader, out: &mut Vec<u8>) -> Option<u8> {
        let byte = r.byte()?;
        out.push(byte);
        match byte {
            0x00 | 0x01 | 0x05 | 0x0a | 0x0b | 0x0f | 0x19 | 0x1a | 0x1b | 0x45..=0xc4 | 0xd1 | 0xd3 | 0xd4 => {}
            0x09 | 0x0c | 0x0d | 0x18 | 0x20..=0x22 | 0xd5 | 0xd6 => self.number(r, out)?,
            0x10 | 0x12 | 0xd2 => self.index(FUNCTION, r, out)?,
            0x23 | 0x24 => self.index(GLOBAL, r, out)?,
            0x28..=0x3e => self.memory_argument(r, out)?,
            0x41 => put_signed(out, r.signed(32)?),
            0x42 => put_signed(out, r.signed(64)?),
            0x43 => self.raw(4, r, out)?,
            0x44 => self.raw(8, r, out)?,
            0x02..=0x04 | 0x06 => self.block_type(r, out)?,
            0x07 | 0x08 | 0xe2 => self.index(TAG, r, out)?,
            0x0e => {
                self.many(r, out, Self::number)?;
                self.number(r, out)?;
            }
            0x11 | 0x13 => {
                self.index(TYPE, r, out)?;
                self.index(TABLE, r, out)?;
            }
            0x14 | 0x15 | 0xe0 => self.index(TYPE, r, out)?,
            0x1c => self.many(r, out, Self::val)?,
            0x1f => {
                self.block_type(r, out)?;
                self.many(r, out, |m, r, out| {
                    let kind = r.byte()?;
                    out.push(kind);
                    match kind {
                        0 | 1 => m.index(TAG, r, out)?,
                        2 | 3 => {}
                        _ => return None,
                    }
                    m.number(r, out)
                })?;
            }
            0x25 | 0x26 => self.index(TABLE, r, out)?,
            0x3f | 0x40 => self.index(MEMORY, r, out)?,
            0xd0 => self.heap(r, out)?,
            0xe1 => {
                self.index(TYPE, r, out)?;
                self.index(TYPE, r, out)?;
            }
            0xe3 | 0xe4 => {
                self.index(TYPE, r, out)?;
                if byte == 0xe4 {
                    self.index(TAG, r, out)?;
                }
                self.many(r, out, |m, r, out| {
                    let kind = r.byte()?;
                    out.push(kind);
                    m.index(TAG, r, out)?;
                    match kind {
                        0 => m.number(r, out),
                        1 => Some(()),
                        _ => None,
                    }
                })?;
            }
            0xfb..=0xfe => self.prefixed(byte, r, out)?,
            _ => return None,
        }
        Some(byte)
    }

    fn prefixed(&mut self, prefix: u8, r: &mut Reader, out: &mut Vec<u8>) -> Option<()> {
        let number = r.u32()?;
        put(out, u64::from(number));
        let spaces: &[usize] = match (prefix, number) {
            (0xfb, 0 | 1 | 6 | 7 | 11..=14 | 16) => &[TYPE],
            (0xfb, 2..=5 | 8) => {
                self.index(TYPE, r, out)?;
                return self.number(r, out);
            }
            (0xfb, 9 | 18) => &[TYPE, DATA],
            (0xfb, 10 | 19) => &[TYPE, ELEMENT],
            (0xfb, 17) => &[TYPE, TYPE],
            (0xfb, 15 | 26..=30) => &[],
            (0xfb, 20..=23) => return self.heap(r, out),
            (0xfb, 24 | 25) => {
                self.mutability(3, r, out)?;
                self.number(r, out)?;
                self.heap(r, out)?;
                return self.heap(r, out);
            }
            (0xfc, 0..=7 | 19..=22) => &[],
            (0xfc, 8) => &[DATA, MEMORY],
            (0xfc, 9) => &[DATA],
            (0xfc, 10) => &[MEMORY, MEMORY],
            (0xfc, 11) => &[MEMORY],
            (0xfc, 12) => &[ELEMENT, TABLE],
            (0xfc, 13) => &[ELEMENT],
            (0xfc, 14) => &[TABLE, TABLE],
            (0xfc, 15..=17) => &[TABLE],
            (0xfd, 0..=11 | 92 | 93) => return self.memory_argument(r, out),
            (0xfd, 12 | 13) => return self.raw(16, r, out),
            (0xfd, 21..=34) => return self.raw(1, r, out),
            (0xfd, 84..=91) => {
                self.memory_argument(r, out)?;
                return self.raw(1, r, out);
            }
            (0xfd, 154 | 162 | 165 | 166 | 175 | 176 | 178..=180 | 187 | 194 | 197 | 198 | 207 | 208 | 210..=212 | 226) => return None,
            (0xfd, 14..=275) => &[],
            (0xfe, 0..=2 | 16..=78) => return self.memory_argument(r, out),
            (0xfe, 3) => return self.mutability(0, r, out),
            _ => return None,
        };
        for space in spaces {
            self.index(*space, r, out)?;
        }
        Some(())
    }

    fn expr(&mut self, r: &mut Reader, out: &mut Vec<u8>) -> Option<()> {
        while self.operator(r, out)? != 0x0b {}
        Some(())
    }

    fn body(&mut self, r: &mut Reader, out: &mut Vec<u8>) -> Option<()> {
        self.many(r, out, |m, r, out| {
            m.number(r, out)?;
            m.val(r, out)
        })?;
        while !r.bytes.is_empty() {
            self.operator(r, out)?;
        }
        Some(())
    }

    fn names(&mut self, r: &mut Reader, out: &mut Vec<u8>) -> Option<()> {
        let mut part = Vec::new();
        while let Some(id) = r.byte() {
            let mut rows = r.frame()?;
            part.clear();
            let space = match id {
                1..=3 => FUNCTION,
                4 | 10 => TYPE,
                5 => TABLE,
                6 => MEMORY,
                7 => GLOBAL,
                8 => ELEMENT,
                9 => DATA,
                _ => TAG,
            };
            match id {
                0 => self.name(&mut rows, &mut part)?,
                1 | 4..=9 | 11 => self.many(&mut rows, &mut part, |m, r, out| {
                    m.index(space, r, out)?;
                    m.name(r, out)
                })?,
                2 | 3 | 10 => self.many(&mut rows, &mut part, |m, r, out| {
                    m.index(space, r, out)?;
                    m.many(r, out, |m, r, out| {
                        m.number(r, out)?;
                        m.name(r, out)
                    })
                })?,
                _ => self.raw(rows.bytes.len(), &mut rows, &mut part)?,
            }
            if !rows.bytes.is_empty() {
                return None;
            }
            out.push(id);
            add_sized(out, &part);
        }
        Some(())
    }

    fn section(&mut self, id: u8, r: &mut Reader, out: &mut Vec<u8>, scratch: &mut Vec<u8>) -> Option<()> {
        match id {
            0 => {
                let name = r.frame()?.bytes;
                std::str::from_utf8(name).ok()?;
                add_sized(out, name);
                if name == b"name" {
                    return self.names(r, out);
                }
                self.raw(r.bytes.len(), r, out)
            }
            1 => self.many(r, out, Self::group),
            2 => self.many(r, out, Self::import),
            3 => self.many(r, out, |m, r, out| m.index(TYPE, r, out)),
            4 => self.many(r, out, Self::table),
            5 => self.many(r, out, |m, r, out| m.limits(15, r, out)),
            6 => self.many(r, out, |m, r, out| {
                m.global_type(r, out)?;
                m.expr(r, out)
            }),
            7 => self.many(r, out, Self::export),
            8 => self.index(FUNCTION, r, out),
            9 => self.many(r, out, Self::element),
            10 => self.many(r, out, |m, r, out| {
                scratch.clear();
                m.body(&mut r.frame()?, scratch)?;
                add_sized(out, scratch);
                Some(())
            }),
            11 => self.many(r, out, Self::segment),
            12 => self.index(DATA_COUNT, r, out),
            13 => self.many(r, out, Self::tag),
            14..=127 => self.raw(r.bytes.len(), r, out),
            _ => None,
        }
    }

    pub fn module(&mut self, bytes: &[u8]) -> Result<Vec<u8>, usize> {
        let mut r = Reader { bytes };
        let mut out = Vec::with_capacity(bytes.len());
        let header = r.take(8).ok_or(0usize)?;
        if header != b"\0asm\x01\0\0\0" {
            return Err(0);
        }
        out.extend_from_slice(header);
        let mut section = Vec::new();
        let mut scratch = Vec::new();
        loop {
            let place = bytes.len() - r.bytes.len();
            let Some(id) = r.byte() else { break };
            if (1..=13).contains(&id) {
                self.hooks.section();
            }
            let mut rows = r.frame().ok_or(place)?;
            section.clear();
            self.section(id, &mut rows, &mut section, &mut scratch).ok_or(place)?;
            if !rows.bytes.is_empty() {
                return Err(place);
            }
            out.push(id);
            add_sized(&mut out, &section);
        }
        self.hooks.section();
        Ok(out)
    }
}

const PAIRS: [[u8; 2]; 256] = {
    let digits = b"0123456789abcdef";
    let mut pairs = [[0; 2]; 256];
    let mut byte = 0;
    while byte < 256 {
        pairs[byte] = [digits[byte >> 4], digits[byte & 15]];
        byte += 1;
    }
    pairs
};

fn print_digits(out: &mut impl Write, bytes: &[u8]) -> std::io::Result<()> {
    let mut text = [0; 1 << 16];
    for piece in bytes.chunks(1 << 15) {
        for (pair, byte) in text.chunks_exact_mut(2).zip(piece) {
            pair.copy_from_slice(&PAIRS[usize::from(*byte)]);
        }
        out.write_all(&text[..2 * piece.len()])?;
    }
    Ok(())
}

/// The same a digit at a time, with a test of each place, as the crate `hex` writes them.
fn print_each(out: &mut impl Write, bytes: &[u8]) -> std::io::Result<()> {
    let digits = b"0123456789abcdef";
    let mut text = vec![0; 1 << 16];
    for piece in bytes.chunks(1 << 15) {
        let len = 2 * piece.len();
        let places = (0..len).step_by(2).zip((0..len).skip(1).step_by(2));
        for (byte, (high, low)) in piece.iter().zip(places) {
            text[high] = digits[usize::from(byte >> 4)];
            text[low] = digits[usize::from(byte & 15)];
        }
        out.write_all(&text[..len])?;
    }
    Ok(())
}

fn value(digit: u8, place: usize) -> Result<u8, (char, usize)> {
    match digit {
        b'A'..=b'F' => Ok(digit - b'A' + 10),
        b'a'..=b'f' => Ok(digit - b'a' + 10),
        b'0'..=b'9' => Ok(digit - b'0'),
        _ => Err((digit as char, place)),
    }
}

/// Blanks are taken out in place, and digits read two at a time, as the crate `hex` reads them.
fn decode_each(mut text: Vec<u8>) -> Option<Vec<u8>> {
    text.retain(|byte| !b" \t\r\n".contains(byte));
    if text.len() % 2 != 0 {
        return None;
    }
    text.chunks(2).enumerate().map(|(i, pair)| Ok(value(pair[0], 2 * i)? << 4 | value(pair[1], 2 * i + 1)?)).collect::<Result<_, (char, usize)>>().ok()
}

const DIGITS: [u8; 256] = {
    let mut digits = [255; 256];
    let mut n = 0;
    while n < 16 {
        digits[b"0123456789abcdef"[n] as usize] = n as u8;
        digits[b"0123456789ABCDEF"[n] as usize] = n as u8;
        n += 1;
    }
    digits
};

fn decode(text: &[u8]) -> Option<Vec<u8>> {
    let mut out = Vec::with_capacity(text.len() / 2);
    let mut high = None;
    for byte in text {
        let digit = DIGITS[usize::from(*byte)];
        if digit == 255 {
            if !b" \t\r\n".contains(byte) {
                return None;
            }
            continue;
        }
        match high.take() {
            None => high = Some(digit),
            Some(first) => out.push(first * 16 + digit),
        }
    }
    high.is_none().then_some(out)
}

/// The tables of a renaming file, `{"space": {"3": 4}}`; it isn't tested beyond what is needed.
fn tables(text: &str) -> Option<[Vec<u32>; 9]> {
    let mut tables: [Vec<u32>; 9] = Default::default();
    for part in text.trim().strip_prefix('{')?.split('}') {
        let Some((head, rows)) = part.split_once('{') else { continue };
        let space = SPACES.iter().position(|name| head.contains(&format!("\"{name}\"")))?;
        for row in rows.split(',').filter(|row| !row.trim().is_empty()) {
            let (from, to) = row.split_once(':')?;
            let from: usize = from.trim().trim_matches('"').parse().ok()?;
            let table = &mut tables[space];
            while table.len() <= from {
                table.push(table.len() as u32);
            }
            table[from] = to.trim().parse().ok()?;
        }
    }
    Some(tables)
}

fn main() {
    let mut words: Vec<String> = std::env::args().skip(1).collect();
    let each = words.first().is_some_and(|word| word == "-d");
    if each {
        words.remove(0);
    }
    let to_file = words.first().is_some_and(|word| word == "-o") && words.len() > 1;
    let file = if to_file { words.drain(..2).nth(1) } else { None };
    let hexadecimal = words.first().is_some_and(|word| word == "-x");
    if hexadecimal {
        words.remove(0);
    }
    let renaming = match words.iter().map(String::as_str).collect::<Vec<_>>()[..] {
        ["plain"] => None,
        ["rename", file] => {
            let Ok(text) = std::fs::read_to_string(file) else { exit(12) };
            let Some(tables) = tables(&text) else { exit(11) };
            Some(tables)
        }
        _ => {
            eprintln!("usage: [-d] [-o OUT] [-x] plain | rename FILE");
            exit(2)
        }
    };
    let mut bytes = Vec::new();
    if std::io::stdin().read_to_end(&mut bytes).is_err() {
        exit(3);
    }
    if hexadecimal {
        let Some(made) = (if each { decode_each(bytes) } else { decode(&bytes) }) else { exit(14) };
        bytes = made;
    }
    let (made, counts) = match renaming {
        None => {
            let mut hooks = Same(Counts::default());
            (Mapper { hooks: &mut hooks }.module(&bytes), hooks.0)
        }
        Some(tables) => {
            let mut hooks = Renamed(Counts::default(), tables);
            (Mapper { hooks: &mut hooks }.module(&bytes), hooks.0)
        }
    };
    let made = match made {
        Ok(made) => made,
        Err(place) => {
            eprintln!("parse error at {place}");
            exit(5)
        }
    };
    if let Some(file) = file {
        exit(if std::fs::write(file, &made).is_ok() { 0 } else { 4 });
    }
    let mut said = String::from("\nasked");
    for (space, count) in SPACES.iter().zip(counts.indices).filter(|(_, count)| *count > 0) {
        let _ = write!(said, " {space} {count}");
    }
    let _ = writeln!(said, " section_hook {}", counts.sections);
    let mut out = std::io::stdout().lock();
    let printed = if each { print_each(&mut out, &made) } else { print_digits(&mut out, &made) };
    if printed.and_then(|()| out.write_all(said.as_bytes())).and_then(|()| out.flush()).is_err() {
        exit(4);
    }
}
