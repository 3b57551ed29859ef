//! Bytes, lines and bracketed items of document 01, read plainly.

/// A refusal: number, text, line.
#[derive(Clone, Copy, Debug, PartialEq, Eq)]
pub struct Refusal {
    pub number: u32,
    pub text: u32,
    pub line: u32,
}

pub fn refuse<T>(number: u32, text: u32, line: u32) -> Result<T, Refusal> {
    Err(Refusal { number, text, line })
}

/// An item of a bracketed text.
#[derive(Clone, Debug, PartialEq, Eq)]
pub enum Item {
    Word(Vec<u8>),
    Whole(i64),
    Text(Vec<u8>),
    Quoted(Vec<u8>),
    List(Vec<Item>),
}

#[derive(Clone, Debug, PartialEq, Eq, PartialOrd, Ord)]
pub enum Value {
    Int(i64),
    Str(Vec<u8>),
    Bool(bool),
}

#[derive(Clone, Copy, Debug, PartialEq, Eq)]
pub enum Kind {
    Int,
    Str,
    Bool,
}

impl Value {
    pub fn kind(&self) -> Kind {
        match self {
            Value::Int(_) => Kind::Int,
            Value::Str(_) => Kind::Str,
            Value::Bool(_) => Kind::Bool,
        }
    }
}

pub const NEVER_NAMES: [&[u8]; 6] = [b"Match", b"Where", b"AND", b"Return", b"true", b"false"];

pub fn is_name(word: &[u8]) -> bool {
    !NEVER_NAMES.contains(&word)
}

/// 1 and 2: too long, or a byte that is not allowed. `one_line`: a query is line 1 throughout.
pub fn check_bytes(bytes: &[u8], limit: usize, text: u32, one_line: bool) -> Result<(), Refusal> {
    if bytes.len() > limit {
        return refuse(1, text, 0);
    }
    let mut line = 1;
    for &b in bytes {
        if !(b == b'\n' || (0x20..=0x7e).contains(&b)) {
            return refuse(2, text, if one_line { 1 } else { line });
        }
        if b == b'\n' {
            line += 1;
        }
    }
    Ok(())
}

/// The lines of a text, each with whether it ends in a line feed.
pub fn lines(bytes: &[u8]) -> Vec<(&[u8], bool)> {
    let mut out = Vec::new();
    let mut rest = bytes;
    while !rest.is_empty() {
        match rest.iter().position(|&b| b == b'\n') {
            Some(at) => {
                out.push((&rest[..at], true));
                rest = &rest[at + 1..];
            }
            None => {
                out.push((rest, false));
                rest = &[];
            }
        }
    }
    out
}

/// Reads the word at the front; its length, or none if it is longer than 24 bytes.
pub fn word_length(s: &[u8]) -> Option<usize> {
    let n = s.iter().take_while(|b| b.is_ascii_alphanumeric() || **b == b'_').count();
    if n <= 24 { Some(n) } else { None }
}

/// Reads a whole number at the front (a digit, or a minus).
pub fn whole(s: &[u8]) -> Option<(i64, usize)> {
    let minus = s.first() == Some(&b'-');
    let digits = &s[minus as usize..];
    let n = digits.iter().take_while(|b| b.is_ascii_digit()).count();
    let digits = &digits[..n];
    if n == 0 || (digits[0] == b'0' && (n > 1 || minus)) {
        return None;
    }
    let mut value: i128 = 0;
    for d in digits {
        value = value * 10 + (d - b'0') as i128;
        if value > 1 << 64 {
            return None;
        }
    }
    if minus {
        value = -value;
    }
    if value < i64::MIN as i128 || value > i64::MAX as i128 {
        return None;
    }
    Some((value as i64, n + minus as usize))
}

/// Reads a text value from behind its first apostrophe on; its bytes and its size with both apostrophes.
pub fn text_value(s: &[u8]) -> Option<(Vec<u8>, usize)> {
    let end = s.iter().position(|&b| b == b'\'')?;
    let t = &s[..end];
    if t.len() > 40 || t.contains(&b'"') || t.contains(&b'\n') {
        return None;
    }
    Some((t.to_vec(), end + 2))
}

/// The items of one line: exactly one list, spaces at either end.
pub fn form(line: &[u8], ended: bool) -> Option<Vec<Item>> {
    if !ended {
        return None;
    }
    let start = line.iter().position(|&b| b != b' ')?;
    let end = line.iter().rposition(|&b| b != b' ')? + 1;
    let mut at = 0;
    let s = &line[start..end];
    if s[0] != b'(' {
        return None;
    }
    let items = list(s, &mut at, 4)?;
    if at == s.len() { Some(items) } else { None }
}

fn list(s: &[u8], at: &mut usize, depth: usize) -> Option<Vec<Item>> {
    if depth == 0 {
        return None;
    }
    *at += 1;
    let mut items = Vec::new();
    // an item may begin only behind a bracket or a space, or with a bracket
    let mut free = true;
    loop {
        let b = *s.get(*at)?;
        match b {
            b' ' => {
                free = true;
                *at += 1;
            }
            b')' => {
                *at += 1;
                return Some(items);
            }
            b'(' => {
                items.push(Item::List(list(s, at, depth - 1)?));
                free = true;
            }
            _ if !free => return None,
            _ => {
                items.push(plain_item(s, at)?);
                free = false;
            }
        }
    }
}

fn plain_item(s: &[u8], at: &mut usize) -> Option<Item> {
    let rest = &s[*at..];
    let b = rest[0];
    if b.is_ascii_alphabetic() {
        let n = word_length(rest)?;
        *at += n;
        Some(Item::Word(rest[..n].to_vec()))
    } else if b.is_ascii_digit() || b == b'-' {
        let (value, n) = whole(rest)?;
        *at += n;
        Some(Item::Whole(value))
    } else if b == b'\'' {
        let (t, n) = text_value(&rest[1..])?;
        *at += n;
        Some(Item::Text(t))
    } else if b == b'"' {
        let end = rest[1..].iter().position(|&c| c == b'"')?;
        *at += end + 2;
        Some(Item::Quoted(rest[1..1 + end].to_vec()))
    } else {
        None
    }
}

pub fn as_word(item: &Item) -> Option<&[u8]> {
    match item {
        Item::Word(w) => Some(w),
        _ => None,
    }
}

pub fn as_name(item: &Item) -> Option<Vec<u8>> {
    as_word(item).filter(|w| is_name(w)).map(|w| w.to_vec())
}

pub fn as_value(item: &Item) -> Option<Value> {
    match item {
        Item::Whole(n) => Some(Value::Int(*n)),
        Item::Text(t) => Some(Value::Str(t.clone())),
        Item::Word(w) if w == b"true" => Some(Value::Bool(true)),
        Item::Word(w) if w == b"false" => Some(Value::Bool(false)),
        _ => None,
    }
}

pub fn as_list(item: &Item) -> Option<&[Item]> {
    match item {
        Item::List(l) => Some(l),
        _ => None,
    }
}

/// Whether some element stands a second time.
pub fn twice<T: PartialEq>(list: &[T]) -> bool {
    list.iter().enumerate().any(|(i, x)| list[..i].contains(x))
}
