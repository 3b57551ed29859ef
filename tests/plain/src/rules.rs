//! Rules and request, read plainly.
use crate::book::*;
use crate::query::*;
use crate::text::*;

#[derive(Clone, Debug)]
pub struct Category {
    pub name: Vec<u8>,
    pub actors: Vec<Vec<u8>>,
    pub over: Vec<usize>,
}

#[derive(Clone, Debug, Default)]
pub struct Rules {
    pub categories: Vec<Category>,
    pub policies: Vec<(usize, Pattern)>,
}

impl Rules {
    pub fn category(&self, name: &[u8]) -> Option<usize> {
        self.categories.iter().position(|c| c.name == name)
    }

    /// A category and all it is over, directly or through others.
    pub fn lower(&self, c: usize) -> Vec<usize> {
        let mut seen = vec![false; self.categories.len()];
        let mut open = vec![c];
        while let Some(d) = open.pop() {
            if !seen[d] {
                seen[d] = true;
                open.extend(&self.categories[d].over);
            }
        }
        (0..seen.len()).filter(|d| seen[*d]).collect()
    }
}

fn names_after(item: &Item, head: &[u8]) -> Option<Vec<Vec<u8>>> {
    let l = as_list(item)?;
    if as_word(l.first()?)? != head {
        return None;
    }
    l[1..].iter().map(as_name).collect()
}

fn add_line(book: &Book, rules: &mut Rules, items: &[Item]) -> Result<(), u32> {
    let head = items.first().and_then(as_word).ok_or(3u32)?;
    let first = |tests: &[(u32, bool)]| tests.iter().find(|t| t.1).map_or(Ok(()), |t| Err(t.0));
    match (head, &items[1..]) {
        (b"category", [n, a, o]) => {
            let name = as_name(n).ok_or(3u32)?;
            let actors = names_after(a, b"actors").ok_or(3u32)?;
            let over = names_after(o, b"over").ok_or(3u32)?;
            let numbers: Vec<Option<usize>> = over.iter().map(|c| rules.category(c)).collect();
            let lacks = !actors.contains(&b"requestor".to_vec())
                || numbers.iter().flatten().any(|c| rules.categories[*c].actors.iter().any(|x| !actors.contains(x)));
            first(&[
                (4, numbers.iter().any(|c| c.is_none())),
                (5, rules.category(&name).is_some() || twice(&actors) || twice(&over)),
                (7, rules.categories.len() >= 16 || actors.len() > 8),
                (9, lacks),
            ])?;
            rules.categories.push(Category { name, actors, over: numbers.into_iter().flatten().collect() });
            Ok(())
        }
        (b"policy", [c, Item::Quoted(t)]) => {
            let name = as_name(c).ok_or(3u32)?;
            let tree = tree(t).ok_or(3u32)?;
            let number = rules.category(&name);
            let f = tree.faults(book);
            first(&[
                (4, number.is_none() || f[0]),
                (5, rules.policies.iter().any(|p| Some(p.0) == number) || f[1]),
                (6, f[2]),
                (7, t.len() > 2048 || f[3]),
                (8, f[4]),
            ])?;
            rules.policies.push((number.unwrap(), tree.pattern(book)));
            Ok(())
        }
        _ => Err(3),
    }
}

pub fn read_rules(book: &Book, bytes: &[u8]) -> Result<Rules, Refusal> {
    check_bytes(bytes, 16_384, 2, false)?;
    let mut rules = Rules::default();
    for (i, (line, ended)) in lines(bytes).into_iter().enumerate() {
        let done = form(line, ended).ok_or(3).and_then(|items| add_line(book, &mut rules, &items));
        if let Err(number) = done {
            return refuse(number, 2, i as u32 + 1);
        }
    }
    let bare = |(i, c): (usize, &Category)| c.over.is_empty() && rules.policies.iter().all(|p| p.0 != i);
    if rules.categories.iter().enumerate().any(bare) {
        return refuse(10, 2, 0);
    }
    Ok(rules)
}

#[derive(Clone, Debug)]
pub struct Request {
    pub category: usize,
    pub identities: Vec<(Vec<u8>, usize)>,
}

fn request_line(book: &Book, rules: &Rules, items: &[Item]) -> Result<Request, u32> {
    let (Some(b"request"), Some(name)) = (items.first().and_then(as_word), items.get(1).and_then(as_name)) else { return Err(3) };
    let claims: Option<Vec<(Vec<u8>, Vec<u8>)>> = items[2..]
        .iter()
        .map(|i| match as_list(i)? {
            [w, a, n] if as_word(w)? == b"id" => Some((as_name(a)?, as_name(n)?)),
            _ => None,
        })
        .collect();
    let claims = claims.ok_or(3u32)?;
    let category = rules.category(&name);
    let known = |a: &Vec<u8>| category.map_or(false, |c| rules.categories[c].actors.contains(a));
    if category.is_none() || claims.iter().any(|(a, n)| !known(a) || book.node(n).is_none()) {
        return Err(4);
    }
    if twice(&claims.iter().map(|c| &c.0).collect::<Vec<_>>()) {
        return Err(5);
    }
    if !claims.iter().any(|c| c.0 == b"requestor") {
        return Err(11);
    }
    let identities = claims.into_iter().map(|(a, n)| (a, book.node(&n).unwrap())).collect();
    Ok(Request { category: category.unwrap(), identities })
}

pub fn read_request(book: &Book, rules: &Rules, bytes: &[u8]) -> Result<Request, Refusal> {
    check_bytes(bytes, 2048, 4, false)?;
    let lines = lines(bytes);
    let Some((line, ended)) = lines.first() else { return refuse(3, 4, 1) };
    let request = form(line, *ended).ok_or(3).and_then(|items| request_line(book, rules, &items));
    match request {
        Err(number) => refuse(number, 4, 1),
        Ok(_) if lines.len() > 1 => refuse(3, 4, 2),
        Ok(r) => Ok(r),
    }
}
