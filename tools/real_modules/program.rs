// A program that uses a good part of the standard library.
use std::collections::{BTreeMap, HashMap, HashSet};
use std::fmt;
use std::io::{self, BufRead, Write};

#[derive(Debug, Clone, PartialEq)]
enum Value {
    Number(f64),
    Text(String),
    List(Vec<Value>),
    Nothing,
}

impl fmt::Display for Value {
    fn fmt(&self, f: &mut fmt::Formatter) -> fmt::Result {
        match self {
            Value::Number(n) => write!(f, "{:.3}", n),
            Value::Text(text) => write!(f, "{:?}", text),
            Value::List(all) => f.debug_list().entries(all.iter().map(|v| v.to_string())).finish(),
            Value::Nothing => f.write_str("nothing"),
        }
    }
}

fn parse(word: &str) -> Result<Value, Box<dyn std::error::Error>> {
    if let Some(inner) = word.strip_prefix('[').and_then(|w| w.strip_suffix(']')) {
        return Ok(Value::List(inner.split(',').map(parse).collect::<Result<_, _>>()?));
    }
    match word.trim() {
        "" => Ok(Value::Nothing),
        w if w.starts_with(|c: char| c.is_ascii_digit()) => Ok(Value::Number(w.parse()?)),
        w => Ok(Value::Text(w.to_uppercase())),
    }
}

#[no_mangle]
pub extern "C" fn entry(seed: u64) -> u64 {
    let mut tree = BTreeMap::new();
    let mut set = HashSet::new();
    for i in 0..seed {
        *tree.entry(i.wrapping_mul(0x9e3779b97f4a7c15) % 97).or_insert(0u64) += i;
        set.insert(format!("{i:x}"));
    }
    tree.values().sum::<u64>() + set.len() as u64
}

fn main() {
    let mut seen: HashMap<String, usize> = HashMap::new();
    for line in io::stdin().lock().lines() {
        let line = line.unwrap();
        for word in line.split_whitespace() {
            match parse(word) {
                Ok(value) => *seen.entry(value.to_string()).or_default() += 1,
                Err(fault) => eprintln!("{word}: {fault}"),
            }
        }
    }
    let mut all: Vec<_> = seen.into_iter().collect();
    all.sort_by(|a, b| b.1.cmp(&a.1).then_with(|| a.0.cmp(&b.0)));
    let mut out = io::stdout().lock();
    for (word, count) in all {
        writeln!(out, "{count:>5} {word}").unwrap();
    }
    writeln!(out, "{}", entry(1000)).unwrap();
}
