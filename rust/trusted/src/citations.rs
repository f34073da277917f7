//! The clauses that comments cite: `004, 6.4 and table 9`, `document 01, "A span"`, `ANSI INCITS 230`. A clause of 004 at the beginning of
//! a comment, as in `6.8: the blanking word`, needs no `004` before it.

const PAPERS: [&str; 4] = ["004", "document 01", "ANSI INCITS 230", "IEEE 802.3"];

/// A word of a list of clauses with what follows it: a number, a title in quotes, or what joins them.
fn part(text: &str) -> Option<(&str, &str)> {
    if let Some(rest) = text.strip_prefix('"') {
        return rest.find('"').map(|end| text.split_at(end + 2));
    }
    let joins = [", ", "; refusal", " and ", " to ", " "].into_iter().find(|join| text.starts_with(join));
    let words = ["tables ", "table ", "figures ", "figure ", "refusals ", "refusal ", "its table of refusals"];
    if let Some(word) = joins.or(words.into_iter().find(|word| text.starts_with(word))) {
        let length = if word == "; refusal" { 2 } else { word.len() };
        return Some(text.split_at(length));
    }
    let digits = text.find(|c: char| !c.is_ascii_digit() && c != '.').unwrap_or(text.len());
    let number = text[..digits].trim_end_matches('.').len();
    let ends = !text[number..].starts_with(|c: char| c.is_alphanumeric() || c == '\'');
    (number > 0 && ends).then(|| text.split_at(number))
}

/// How far a list of clauses goes: to its last number or title.
fn list_length(text: &str) -> usize {
    let (mut rest, mut length) = (text, 0);
    while let Some((word, after)) = part(rest) {
        rest = after;
        if word.ends_with(|c: char| c.is_ascii_digit() || c == '"') || word.ends_with("refusals") {
            length = text.len() - rest.len();
        }
    }
    length
}

/// A clause of 004 at the beginning of a comment, followed by a colon.
fn at_beginning(text: &str) -> Option<String> {
    let length = list_length(text);
    let clause = &text[..length];
    let told = (clause.contains('.') && !clause.starts_with("004")) || clause.starts_with("table") || clause.starts_with("figure");
    (told && text[length..].starts_with([':', ','])).then(|| format!("004, {clause}"))
}

/// What the comments of a file cite, in their order, each once.
pub fn citations(comments: &[String]) -> Vec<String> {
    let mut found: Vec<String> = Vec::new();
    let whole = comments.join(" ").replace("Document 01", "document 01");
    let mut places: Vec<(usize, &str)> = PAPERS.iter().flat_map(|paper| whole.match_indices(paper)).collect();
    places.sort();
    for (at, paper) in places {
        let after = &whole[at + paper.len()..];
        let length = if after.starts_with(", ") { list_length(after) } else { 0 };
        found.push(format!("{paper}{}", &after[..length]));
    }
    found.extend(comments.iter().filter_map(|comment| at_beginning(comment)));
    let bare = |one: &String| ["004", "document 01"].contains(&one.as_str());
    let told = |one: &String| found.iter().any(|other| other.starts_with(&format!("{one}, ")));
    // A paper's bare name adds nothing to a clause of it.
    let mut kept: Vec<String> = Vec::new();
    for one in found.iter().filter(|one| !bare(one) || !told(one)) {
        if !kept.contains(one) {
            kept.push(one.clone());
        }
    }
    kept
}

#[cfg(test)]
mod tests {
    use super::*;

    fn of(comment: &str) -> Vec<String> {
        citations(&[comment.to_string()])
    }

    #[test]
    fn clauses_and_titles() {
        assert_eq!(of("The words (004, 6.3 and table 8)."), ["004, 6.3 and table 8"]);
        assert_eq!(of("(document 01, \"A span\"; 004, 7.1.1 and 7.1.2: sent first)"), ["document 01, \"A span\"", "004, 7.1.1 and 7.1.2"]);
        assert_eq!(of("of ANSI INCITS 230, which 004, 7.1.1 names"), ["ANSI INCITS 230", "004, 7.1.1"]);
        assert_eq!(of("(document 01, \"A span\", refusals 7 and 20)"), ["document 01, \"A span\", refusals 7 and 20"]);
    }

    #[test]
    fn clauses_that_begin_a_comment() {
        assert_eq!(of("7.1, figures 14 and 16: of the first four bytes"), ["004, 7.1, figures 14 and 16"]);
        assert_eq!(of("20: symbol i is legal"), [] as [String; 0]);
        assert_eq!(of("1 for an unknown format"), [] as [String; 0]);
    }
}
