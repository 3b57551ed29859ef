//! The worked example: which of ana's stations tilt by less than 50? At its end a stored book is renamed, and a partner's book made tidy.
const BOOK: &[u8] = b"(vattr kind str)
(vattr rate int)
(label runs)
(label feeds)
(node ana)
(node hub (kind 'hub'))
(node S5 (rate 40))
(node S6)
(rel runs ana hub)
(rel feeds S5 hub)
(rel feeds S6 hub)
";
const RULES: &[u8] = b"(category view (actors requestor) (over))
(policy view \"Match (requestor)-[r:runs]->(h) Return h\")
";
const QUERY: &[u8] = b"Match (requestor)-[a:runs]->(h)<-[b:feeds]-(s) Where s.rate < 50 Return s";
const REQUEST: &[u8] = b"(request view (id requestor ana))\n";

/// Two lines of a book that was stored before names that differ only by case were refused.
const STORED: &[u8] = b"(node S6)\n(node s6)\n";

/// Lines of a book as a partner sent it.
const UNTIDY: &[u8] = b"(vattr kind str)
(vattr rate int)
( node  S6(rate 3)(kind 'mast') )
(label feeds)
";

fn main() -> Result<(), hifmuneth::Refusal> {
    println!("{:?}", hifmuneth::read_book(BOOK)?);
    println!("{:?}", hifmuneth::read_request(BOOK, RULES, REQUEST)?);
    let pattern = hifmuneth::read_query(BOOK, QUERY)?;
    println!("vertices {:?}", pattern.vertices);
    for edge in &pattern.edges {
        println!("{} from {} to {}", edge.name, pattern.vertices[edge.from], pattern.vertices[edge.to]);
    }
    for condition in &pattern.conditions {
        println!("{condition:?}");
    }
    println!("{}", String::from_utf8_lossy(&hifmuneth::write_query(BOOK, RULES, QUERY)?));
    println!("any row: {}", hifmuneth::lamp(BOOK, RULES, QUERY, REQUEST)?);
    let names = hifmuneth::node_names(BOOK)?;
    for row in hifmuneth::list(BOOK, RULES, QUERY, REQUEST, 1024)? {
        let shown: Vec<&str> = row.iter().map(|node| names[*node as usize].as_str()).collect();
        println!("{row:?} {}", shown.join(" "));
    }
    if let Err(refusal) = hifmuneth::read_book(STORED) {
        println!("{refusal}");
    }
    print!("{}", String::from_utf8_lossy(&hifmuneth::rename_book(STORED)?));
    print!("{}", String::from_utf8_lossy(&hifmuneth::tidy_book(UNTIDY)?));
    Ok(())
}
