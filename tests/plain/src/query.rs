//! A query or policy, read plainly: signs, syntax tree, faults 4 to 8, pattern, written text.
use crate::book::*;
use crate::text::*;

#[derive(Clone, Copy, Debug, PartialEq, Eq)]
pub enum Relation {
    Eq,
    Ne,
    Lt,
    Le,
    Gt,
    Ge,
}

#[derive(Clone, Debug, PartialEq, Eq)]
enum Sign {
    Word(Vec<u8>),
    Whole(i64),
    Text(Vec<u8>),
    Mark(&'static [u8]),
}

#[derive(Clone, Debug)]
enum Condition {
    Differ(Vec<u8>, Vec<u8>),
    Demand(Vec<u8>, Vec<u8>, Relation, Value),
}

#[derive(Clone, Debug)]
struct ChainEdge {
    name: Vec<u8>,
    label: Vec<u8>,
    from: Vec<u8>,
    to: Vec<u8>,
}

#[derive(Clone, Debug, Default)]
struct Match {
    vertices: Vec<Vec<u8>>,
    edges: Vec<ChainEdge>,
    conditions: Vec<Condition>,
}

/// The syntax tree of an accepted grammar.
#[derive(Clone, Debug)]
pub struct Tree {
    matches: Vec<Match>,
    returns: Vec<Vec<u8>>,
}

#[derive(Clone, Debug, PartialEq, Eq)]
pub enum Clause {
    Excluded(usize, usize),
    Vertex(usize, usize, Relation, Value),
    Edge(usize, usize, Relation, Value),
}

#[derive(Clone, Debug, PartialEq, Eq)]
pub struct Edge {
    pub name: Vec<u8>,
    pub label: usize,
    pub from: usize,
    pub to: usize,
}

#[derive(Clone, Debug, PartialEq, Eq)]
pub struct Pattern {
    pub vertices: Vec<Vec<u8>>,
    pub edges: Vec<Edge>,
    pub clauses: Vec<Clause>,
    pub returns: Vec<usize>,
}

const CHAIN_MARKS: [&[u8]; 2] = [b"<-", b"->"];
const MARKS: [&[u8]; 14] = [b"<>", b"<=", b">=", b"=", b"<", b">", b"(", b")", b"[", b"]", b":", b",", b".", b"-"];

fn signs(s: &[u8]) -> Option<Vec<Sign>> {
    let mut out = Vec::new();
    let (mut at, mut chain, mut close) = (0, false, false);
    while at < s.len() {
        let rest = &s[at..];
        let b = rest[0];
        if b == b' ' || b == b'\n' {
            at += 1;
            close = false;
            continue;
        }
        let (sign, size) = if b.is_ascii_alphabetic() {
            let n = word_length(rest)?;
            (Sign::Word(rest[..n].to_vec()), n)
        } else if b.is_ascii_digit() || (b == b'-' && rest.get(1).map_or(false, |d| d.is_ascii_digit())) {
            let (value, n) = whole(rest)?;
            (Sign::Whole(value), n)
        } else if b == b'\'' {
            let (t, n) = text_value(&rest[1..])?;
            (Sign::Text(t), n)
        } else {
            let chains = CHAIN_MARKS.iter().filter(|_| chain);
            let mark = chains.chain(MARKS.iter()).find(|m| rest.starts_with(m))?;
            (Sign::Mark(mark), mark.len())
        };
        let wordy = matches!(sign, Sign::Word(_) | Sign::Whole(_));
        if close && wordy {
            return None;
        }
        close = wordy;
        if let Sign::Word(w) = &sign {
            match w.as_slice() {
                b"Match" => chain = true,
                b"Where" | b"Return" => chain = false,
                _ => {}
            }
        }
        out.push(sign);
        at += size;
    }
    Some(out)
}

struct Reader {
    signs: Vec<Sign>,
    at: usize,
}

impl Reader {
    fn is_word(&self, w: &[u8]) -> bool {
        matches!(self.signs.get(self.at), Some(Sign::Word(x)) if x == w)
    }

    fn is_mark(&self, m: &[u8]) -> bool {
        matches!(self.signs.get(self.at), Some(Sign::Mark(x)) if *x == m)
    }

    fn mark(&mut self, m: &[u8]) -> Option<()> {
        if self.is_mark(m) {
            self.at += 1;
            Some(())
        } else {
            None
        }
    }

    fn name(&mut self) -> Option<Vec<u8>> {
        match self.signs.get(self.at) {
            Some(Sign::Word(w)) if is_name(w) => {
                self.at += 1;
                Some(w.clone())
            }
            _ => None,
        }
    }

    fn vertex(&mut self) -> Option<Vec<u8>> {
        self.mark(b"(")?;
        let v = self.name()?;
        self.mark(b")")?;
        Some(v)
    }

    fn relation(&mut self) -> Option<Relation> {
        let r = match self.signs.get(self.at)? {
            Sign::Mark(b"=") => Relation::Eq,
            Sign::Mark(b"<>") => Relation::Ne,
            Sign::Mark(b"<") => Relation::Lt,
            Sign::Mark(b"<=") => Relation::Le,
            Sign::Mark(b">") => Relation::Gt,
            Sign::Mark(b">=") => Relation::Ge,
            _ => return None,
        };
        self.at += 1;
        Some(r)
    }

    fn value(&mut self) -> Option<Value> {
        let v = match self.signs.get(self.at)? {
            Sign::Whole(n) => Value::Int(*n),
            Sign::Text(t) => Value::Str(t.clone()),
            Sign::Word(w) if w == b"true" => Value::Bool(true),
            Sign::Word(w) if w == b"false" => Value::Bool(false),
            _ => return None,
        };
        self.at += 1;
        Some(v)
    }

    fn condition(&mut self) -> Option<Condition> {
        let x = self.name()?;
        if self.is_mark(b"<>") {
            self.at += 1;
            return Some(Condition::Differ(x, self.name()?));
        }
        self.mark(b".")?;
        let a = self.name()?;
        let r = self.relation()?;
        Some(Condition::Demand(x, a, r, self.value()?))
    }

    fn one_match(&mut self) -> Option<Match> {
        let mut m = Match::default();
        m.vertices.push(self.vertex()?);
        loop {
            let rightward = self.is_mark(b"-");
            if !rightward && !self.is_mark(b"<-") {
                break;
            }
            self.at += 1;
            self.mark(b"[")?;
            let name = self.name()?;
            self.mark(b":")?;
            let label = self.name()?;
            self.mark(b"]")?;
            self.mark(if rightward { b"->" } else { b"-" })?;
            let left = m.vertices.last().unwrap().clone();
            let right = self.vertex()?;
            let (from, to) = if rightward { (left, right.clone()) } else { (right.clone(), left) };
            m.edges.push(ChainEdge { name, label, from, to });
            m.vertices.push(right);
        }
        if self.is_word(b"Where") {
            loop {
                self.at += 1;
                m.conditions.push(self.condition()?);
                if !self.is_word(b"AND") {
                    break;
                }
            }
        }
        Some(m)
    }

    fn query(&mut self) -> Option<Tree> {
        let mut matches = Vec::new();
        while self.is_word(b"Match") {
            self.at += 1;
            matches.push(self.one_match()?);
        }
        if matches.is_empty() || !self.is_word(b"Return") {
            return None;
        }
        self.at += 1;
        let mut returns = vec![self.name()?];
        while self.is_mark(b",") {
            self.at += 1;
            returns.push(self.name()?);
        }
        if self.at == self.signs.len() { Some(Tree { matches, returns }) } else { None }
    }
}

pub fn tree(s: &[u8]) -> Option<Tree> {
    Reader { signs: signs(s)?, at: 0 }.query()
}

fn has_relation(kind: Kind, r: Relation) -> bool {
    kind != Kind::Bool || r == Relation::Eq || r == Relation::Ne
}

impl Tree {
    pub fn vertices(&self) -> Vec<Vec<u8>> {
        let mut out: Vec<Vec<u8>> = Vec::new();
        for v in self.matches.iter().flat_map(|m| &m.vertices) {
            if !out.contains(v) {
                out.push(v.clone());
            }
        }
        out
    }

    fn edges(&self) -> Vec<&ChainEdge> {
        self.matches.iter().flat_map(|m| &m.edges).collect()
    }

    fn conditions(&self) -> Vec<&Condition> {
        self.matches.iter().flat_map(|m| &m.conditions).collect()
    }

    /// Faults 4 to 8 as tests.
    pub fn faults(&self, book: &Book) -> [bool; 5] {
        let (vertices, edges) = (self.vertices(), self.edges());
        let edge_names: Vec<&Vec<u8>> = edges.iter().map(|e| &e.name).collect();
        let mut undeclared = edges.iter().any(|e| book.label(&e.label).is_none()) || self.returns.iter().any(|v| !vertices.contains(v));
        let mut mistyped = false;
        let (mut vs, mut es): (Vec<&Vec<u8>>, Vec<&Vec<u8>>) = (vec![], vec![]);
        for m in &self.matches {
            vs.extend(&m.vertices);
            es.extend(m.edges.iter().map(|e| &e.name));
            for c in &m.conditions {
                match c {
                    Condition::Differ(v, u) => undeclared |= !(vs.contains(&v) && vs.contains(&u)),
                    Condition::Demand(x, a, r, v) => {
                        let fits = |attrs: &[(Vec<u8>, Kind)]| find_attr(attrs, a).map(|n| has_relation(attrs[n].1, *r) && attrs[n].1 == v.kind());
                        let as_vertex = if vs.contains(&x) { fits(&book.vattrs) } else { None };
                        let as_edge = if es.contains(&x) { fits(&book.eattrs) } else { None };
                        undeclared |= as_vertex.is_none() && as_edge.is_none();
                        mistyped |= !(as_vertex == Some(true) || as_edge == Some(true));
                    }
                }
            }
        }
        let repeated = twice(&edge_names) || edge_names.iter().any(|e| vertices.contains(e)) || twice(&self.returns);
        let conditions = self.conditions();
        let exclusions = conditions.iter().filter(|c| matches!(c, Condition::Differ(..))).count();
        let too_many = vertices.len() > 8 || edges.len() > 16 || exclusions > 16 || conditions.len() - exclusions > 16 || self.returns.len() > 4;
        let itself = conditions.iter().any(|c| matches!(c, Condition::Differ(v, u) if v == u));
        [undeclared, repeated, mistyped, too_many, itself]
    }

    /// The pattern, where there is no fault.
    pub fn pattern(&self, book: &Book) -> Pattern {
        let vertices = self.vertices();
        let place = |v: &Vec<u8>| vertices.iter().position(|x| x == v).unwrap();
        let edges: Vec<Edge> =
            self.edges().iter().map(|e| Edge { name: e.name.clone(), label: book.label(&e.label).unwrap(), from: place(&e.from), to: place(&e.to) }).collect();
        let clauses = self
            .conditions()
            .iter()
            .map(|c| match c {
                Condition::Differ(v, u) => Clause::Excluded(place(v), place(u)),
                Condition::Demand(x, a, r, v) => match vertices.iter().position(|y| y == x) {
                    Some(i) => Clause::Vertex(i, find_attr(&book.vattrs, a).unwrap(), *r, v.clone()),
                    None => Clause::Edge(edges.iter().position(|e| e.name == *x).unwrap(), find_attr(&book.eattrs, a).unwrap(), *r, v.clone()),
                },
            })
            .collect();
        let returns = self.returns.iter().map(place).collect();
        Pattern { vertices, edges, clauses, returns }
    }
}

pub fn read_query(book: &Book, s: &[u8]) -> Result<Pattern, Refusal> {
    check_bytes(s, 2048, 3, true)?;
    let Some(tree) = tree(s) else { return refuse(3, 3, 1) };
    match tree.faults(book).iter().position(|f| *f) {
        Some(i) => refuse(i as u32 + 4, 3, 1),
        None => Ok(tree.pattern(book)),
    }
}

fn relation_text(r: Relation) -> &'static str {
    match r {
        Relation::Eq => "=",
        Relation::Ne => "<>",
        Relation::Lt => "<",
        Relation::Le => "<=",
        Relation::Gt => ">",
        Relation::Ge => ">=",
    }
}

pub fn value_text(v: &Value) -> Vec<u8> {
    match v {
        Value::Int(n) => n.to_string().into_bytes(),
        Value::Str(t) => [b"'", t.as_slice(), b"'"].concat(),
        Value::Bool(b) => b.to_string().into_bytes(),
    }
}

/// The text that the query writer gives for a pattern.
pub fn written(book: &Book, p: &Pattern) -> Vec<u8> {
    let mut parts: Vec<Vec<u8>> = p.vertices.iter().map(|v| [b"Match (", v.as_slice(), b")"].concat()).collect();
    parts.extend(p.edges.iter().map(|e| {
        [b"Match (", p.vertices[e.from].as_slice(), b")-[", &e.name, b":", &book.labels[e.label], b"]->(", &p.vertices[e.to], b")"].concat()
    }));
    let mut out = parts.join(&b" "[..]);
    let demand = |x: &[u8], a: &[u8], r: Relation, v: &Value| [x, b".", a, b" ", relation_text(r).as_bytes(), b" ", &value_text(v)].concat();
    let clauses: Vec<Vec<u8>> = p
        .clauses
        .iter()
        .map(|c| match c {
            Clause::Excluded(v, u) => [p.vertices[*v].as_slice(), b" <> ", &p.vertices[*u]].concat(),
            Clause::Vertex(v, a, r, x) => demand(&p.vertices[*v], &book.vattrs[*a].0, *r, x),
            Clause::Edge(e, a, r, x) => demand(&p.edges[*e].name, &book.eattrs[*a].0, *r, x),
        })
        .collect();
    if !clauses.is_empty() {
        out.extend(b" Where ");
        out.extend(clauses.join(&b" AND "[..]));
    }
    out.extend(b" Return ");
    out.extend(p.returns.iter().map(|v| p.vertices[*v].clone()).collect::<Vec<_>>().join(&b", "[..]));
    out
}

pub fn shown(p: &Pattern) -> Vec<u8> {
    let clause = |kind: &str, i: usize, a: usize, r: Relation, v: &Value| {
        [format!(" ({kind} {i} {a} {} ", relation_text(r)).as_bytes(), &value_text(v), b")"].concat()
    };
    let mut out = b"(query (vertices".to_vec();
    for v in &p.vertices {
        out.push(b' ');
        out.extend(v);
    }
    out.extend(b") (edges");
    for e in &p.edges {
        out.extend(b" (");
        out.extend(&e.name);
        out.extend(format!(" {} {} {})", e.label, e.from, e.to).bytes());
    }
    out.extend(b") (exclusions");
    for c in &p.clauses {
        if let Clause::Excluded(v, u) = c {
            out.extend(format!(" ({v} {u})").bytes());
        }
    }
    out.extend(b") (requirements");
    for c in &p.clauses {
        match c {
            Clause::Excluded(..) => {}
            Clause::Vertex(v, a, r, x) => out.extend(clause("v", *v, *a, *r, x)),
            Clause::Edge(e, a, r, x) => out.extend(clause("e", *e, *a, *r, x)),
        }
    }
    out.extend(b") (return");
    for v in &p.returns {
        out.extend(format!(" {v}").bytes());
    }
    out.extend(b"))");
    out
}
