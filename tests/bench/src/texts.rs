//! The texts that are timed: the worked example, a full book, a dense book with a cyclic query.
use std::fmt::Write;

pub struct Texts {
    pub name: &'static str,
    pub book: String,
    pub rules: String,
    pub query: String,
    pub request: String,
    /// The same request for a node at which the search ends at once.
    pub nowhere: String,
    /// Whether enumeration of all mappings ends in good time.
    pub enumerable: bool,
}

pub fn worked() -> Texts {
    Texts {
        name: "worked example",
        book: "(vattr kind str)\n(vattr rate int)\n(label runs)\n(label feeds)\n(node ana)\n(node hub (kind 'hub'))\n(node S5 (rate 40))\n(node S6)\n\
               (rel runs ana hub)\n(rel feeds S5 hub)\n(rel feeds S6 hub)\n"
            .into(),
        rules: "(category view (actors requestor) (over))\n(policy view \"Match (requestor)-[r:runs]->(h) Return h\")\n".into(),
        query: "Match (requestor)-[a:runs]->(h)<-[b:feeds]-(s) Where s.rate < 50 Return s".into(),
        request: "(request view (id requestor ana))\n".into(),
        nowhere: "(request view (id requestor S6))\n".into(),
        enumerable: true,
    }
}

/// 256 nodes, 1,024 relationships, 600 attribute entries, 49 KB: duty officers run hubs, stations feed hubs, officers are on call for each other.
pub fn full() -> Texts {
    let mut book = String::from("(vattr kind str)\n(vattr rate int)\n(vattr open bool)\n(eattr since int)\n(label runs)\n(label feeds)\n(label oncall)\n");
    let names: Vec<String> = (0..256)
        .map(|i| match i {
            0..=15 => format!("officer_{i:02}"),
            16..=47 => format!("hub_{i:03}"),
            _ => format!("station_{i:03}"),
        })
        .collect();
    let mut entries = 0;
    for (i, n) in names.iter().enumerate() {
        let mut line = format!("(node {n}");
        if i >= 16 {
            write!(line, " (rate {})", (i * 37) % 101).unwrap();
            write!(line, " (kind '{}')", if i < 48 { "hub" } else { "station, tilting slowly" }).unwrap();
            entries += 2;
        }
        writeln!(book, "{line})").unwrap();
    }
    let (mut rels, mut seen) = (0, std::collections::HashSet::new());
    let mut add = |book: &mut String, label: &str, from: usize, to: usize| {
        if rels < 1024 && seen.insert((label.to_string(), from, to)) {
            let since = if entries < 600 { format!(" (since {})", 2000 + rels % 26) } else { String::new() };
            entries += (entries < 600) as usize;
            rels += 1;
            writeln!(book, "(rel {label} {} {}{since})", names[from], names[to]).unwrap();
        }
    };
    for o in 0..16 {
        for h in 0..4 {
            add(&mut book, "runs", o, 16 + (o * 5 + h * 7) % 32);
        }
        for p in 0..3 {
            add(&mut book, "oncall", o, (o + 1 + p * 4) % 16);
        }
    }
    for i in 0..6000 {
        add(&mut book, "feeds", 48 + (i * 83) % 208, 16 + (i * 13 + i / 208) % 32);
    }
    Texts {
        name: "full book",
        book,
        rules: "(category view (actors requestor) (over))\n\
                (policy view \"Match (requestor)-[r:runs]->(h) Where h.kind = 'hub' Return h\")\n\
                (category tend (actors requestor mate) (over view))\n\
                (policy tend \"Match (requestor)-[o:oncall]->(mate)-[r:runs]->(k) Where k.rate < 90 AND k <> mate Return mate\")\n"
            .into(),
        query: "Match (requestor)-[a:runs]->(h)<-[b:feeds]-(s) Where s.rate < 50 AND h <> s Return h, s".into(),
        request: "(request tend (id requestor officer_03))\n".into(),
        nowhere: "(request tend (id requestor station_100))\n".into(),
        enumerable: false,
    }
}

/// 33 nodes, every fourth pair related; the query is a cycle of four edges with a chord, the policy one of three.
pub fn dense() -> Texts {
    let mut book = String::from("(vattr rate int)\n(label near)\n");
    for i in 0..32 {
        writeln!(book, "(node n{i} (rate {}))", i * 3).unwrap();
    }
    writeln!(book, "(node alone)").unwrap();
    for i in 0..32 {
        for j in 0..32 {
            if (i * 7 + j * 3 + i * j) % 2 == 0 {
                writeln!(book, "(rel near n{i} n{j})").unwrap();
            }
        }
    }
    Texts {
        name: "dense cycle",
        book,
        rules: "(category view (actors requestor) (over))\n(policy view \"Match (requestor)-[r:near]->(p)-[s:near]->(q)-[t:near]->(requestor) Where p <> q Return p\")\n".into(),
        query: "Match (requestor)-[a:near]->(x)-[b:near]->(y)-[c:near]->(z)-[d:near]->(requestor) Match (x)-[e:near]->(z) \
                Where x <> y AND y <> z AND x <> z AND z.rate < 60 Return x, y, z"
            .into(),
        request: "(request view (id requestor n2))\n".into(),
        nowhere: "(request view (id requestor alone))\n".into(),
        enumerable: true,
    }
}
