//! Names.antt and NameText.antt: the spelling of an index, what is skipped, and names in a text.

pub type Name = Vec<u8>;

pub fn letters(n: usize, i: usize) -> Name {
    if n == 0 {
        return vec![];
    }
    let mut front = letters(n - 1, i / 26);
    front.push(97 + (i % 26) as u8);
    front
}

pub fn spell(i: usize) -> Name {
    letters(i / 26 + 1, i)
}

pub fn skip(n: usize, taken: &[Name], i: usize) -> usize {
    if n > 0 && taken.contains(&spell(i)) {
        skip(n - 1, taken, i + 1)
    } else {
        i
    }
}

pub fn fresh(taken: &[Name], i: usize) -> usize {
    skip(taken.len(), taken, i)
}

pub fn bytes_of(names: &[Name], x: usize) -> Name {
    if x < 64 {
        names.get(x).cloned().unwrap_or_default()
    } else {
        spell(x - 64)
    }
}

pub fn cut_entry(text: &[u8]) -> Option<(&[u8], &[u8])> {
    let (n, rest) = text.split_first()?;
    rest.split_at_checked(*n as usize)
}

pub fn names_in(text: &[u8]) -> Vec<Name> {
    match cut_entry(text) {
        None => vec![],
        Some((name, rest)) => [vec![name.to_vec()], names_in(rest)].concat(),
    }
}

pub fn name_byte(b: &u8) -> bool {
    matches!(b, 65..=90 | 97..=122 | 48..=57 | 95)
}

pub fn well_spelled(x: &[u8]) -> bool {
    (1..=32).contains(&x.len()) && x.iter().all(name_byte)
}

pub fn bad_name(count: usize, text: &[u8]) -> Option<usize> {
    let mut earlier: Vec<&[u8]> = vec![];
    let mut text = text;
    for i in 0..count {
        let Some((x, rest)) = cut_entry(text) else {
            return Some(i);
        };
        if !well_spelled(x) || earlier.contains(&x) {
            return Some(i);
        }
        earlier.push(x);
        text = rest;
    }
    (!text.is_empty()).then_some(count)
}
