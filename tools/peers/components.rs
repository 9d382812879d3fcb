// A straight walk over three sections of a component in Rust, to measure against: aliases, imports and lifted functions. It
// decodes each number, asks a hook for each index, and writes the shortest spelling, without proofs.
use std::io::Read;

struct Hooks {
    counts: [u64; 8],
    entries: Vec<u32>,
}

const INSTANCE: usize = 0;
const CORE_INSTANCE: usize = 1;
const OUTER: usize = 2;
const CORE_TYPE: usize = 3;
const TYPE: usize = 4;
const FUNCTION: usize = 5;
const MEMORY: usize = 6;

impl Hooks {
    fn ask(&mut self, space: usize, index: u32) -> u32 {
        self.counts[space] += 1;
        match self.entries.get(index as usize) {
            Some(answer) => *answer,
            None => index,
        }
    }
}

struct Reader<'a> {
    bytes: &'a [u8],
    at: usize,
}

impl<'a> Reader<'a> {
    fn byte(&mut self) -> Option<u8> {
        let byte = *self.bytes.get(self.at)?;
        self.at += 1;
        Some(byte)
    }

    fn number(&mut self) -> Option<u32> {
        let mut value = 0;
        for k in 0..5 {
            let byte = self.byte()?;
            value |= u64::from(byte & 127) << (7 * k);
            if byte < 128 {
                return u32::try_from(value).ok();
            }
        }
        None
    }

    fn take(&mut self, len: usize) -> Option<&'a [u8]> {
        let taken = self.bytes.get(self.at..self.at.checked_add(len)?)?;
        self.at += len;
        Some(taken)
    }

    fn name(&mut self) -> Option<&'a str> {
        let len = self.number()? as usize;
        std::str::from_utf8(self.take(len)?).ok()
    }
}

fn put(out: &mut Vec<u8>, mut number: u32) {
    while number > 127 {
        out.push(number as u8 | 128);
        number >>= 7;
    }
    out.push(number as u8);
}

fn put_name(out: &mut Vec<u8>, name: &str) {
    put(out, name.len() as u32);
    out.extend_from_slice(name.as_bytes());
}

fn alias(rows: &mut Reader, hooks: &mut Hooks, out: &mut Vec<u8>) -> Option<()> {
    let sort = rows.byte()?;
    out.push(sort);
    if sort == 0 {
        out.push(rows.byte()?);
    }
    let target = rows.byte()?;
    out.push(target);
    match target {
        0 | 1 => {
            let instance = rows.number()?;
            put(out, hooks.ask(if target == 0 { INSTANCE } else { CORE_INSTANCE }, instance));
            put_name(out, rows.name()?);
        }
        2 => {
            put(out, rows.number()?);
            let index = rows.number()?;
            put(out, hooks.ask(OUTER, index));
        }
        _ => return None,
    }
    Some(())
}

fn import(rows: &mut Reader, hooks: &mut Hooks, out: &mut Vec<u8>) -> Option<()> {
    if rows.byte()? > 1 {
        return None;
    }
    out.push(0);
    put_name(out, rows.name()?);
    let sort = rows.byte()?;
    out.push(sort);
    let space = match sort {
        0 => {
            out.push(rows.byte()?);
            CORE_TYPE
        }
        1 | 4 | 5 => TYPE,
        _ => return None,
    };
    let index = rows.number()?;
    put(out, hooks.ask(space, index));
    Some(())
}

fn lifted(rows: &mut Reader, hooks: &mut Hooks, out: &mut Vec<u8>) -> Option<()> {
    if rows.byte()? != 0 || rows.byte()? != 0 {
        return None;
    }
    let function = rows.number()?;
    let function = hooks.ask(FUNCTION, function);
    let count = rows.number()?;
    let mut options = Vec::new();
    for _ in 0..count {
        let option = rows.byte()?;
        let index = match option {
            3 | 4 | 5 | 7 => Some(rows.number()?),
            0..=2 | 6 | 9 => None,
            _ => return None,
        };
        options.push((option, index));
    }
    let ty = rows.number()?;
    let ty = hooks.ask(TYPE, ty);
    out.extend([0, 0]);
    put(out, function);
    put(out, count);
    for (option, index) in options {
        out.push(option);
        if let Some(index) = index {
            put(out, hooks.ask(if option == 3 { MEMORY } else { FUNCTION }, index));
        }
    }
    put(out, ty);
    Some(())
}

fn walked(bytes: &[u8], hooks: &mut Hooks) -> Option<Vec<u8>> {
    let mut sections = Reader { bytes, at: 0 };
    let mut out = sections.take(8)?.to_vec();
    while sections.at < bytes.len() {
        let id = sections.byte()?;
        let len = sections.number()? as usize;
        let mut rows = Reader { bytes: sections.take(len)?, at: 0 };
        let count = rows.number()?;
        let mut body = Vec::new();
        put(&mut body, count);
        for _ in 0..count {
            match id {
                6 => alias(&mut rows, hooks, &mut body)?,
                8 => lifted(&mut rows, hooks, &mut body)?,
                10 => import(&mut rows, hooks, &mut body)?,
                _ => return None,
            }
        }
        if rows.at < len {
            return None;
        }
        out.push(id);
        put(&mut out, body.len() as u32);
        out.extend_from_slice(&body);
    }
    Some(out)
}

fn main() {
    let mut bytes = Vec::new();
    std::io::stdin().read_to_end(&mut bytes).expect("an input");
    let mut hooks = Hooks { counts: [0; 8], entries: Vec::new() };
    let made = walked(&bytes, &mut hooks).expect("a component of these sections");
    println!("{} {} {:?}", made.len(), made == bytes, hooks.counts);
}
