//! The words of antt: names, brackets, and the signs between them. A name is anything between blanks, brackets, commas, semicolons and
//! dots, so that `foo_bar`, `n'`, `«K28_5»` and `⊕` are one each.

#[derive(Debug, Clone, Copy, PartialEq, Eq)]
pub enum Word<'a> {
    Name(&'a str),
    /// A name directly after a dot: a field, a variant, or the rest of a path. It is resolved by what is before it.
    Behind(&'a str),
    Open(char),
    Close,
    Sign(char),
}

/// A line without its `--` comment.
pub fn without_comment(line: &str) -> &str {
    let starts = |at: &usize| line[..*at].ends_with(|c: char| c.is_whitespace()) || *at == 0;
    match line.match_indices("--").map(|(at, _)| at).find(starts) {
        Some(at) => &line[..at],
        None => line,
    }
}

fn is_sign(c: char) -> bool {
    c.is_whitespace() || "(){}[],;.⌜⌝\"".contains(c)
}

fn sign(c: char) -> Word<'static> {
    match c {
        '(' | '{' | '[' => Word::Open(c),
        ')' | '}' | ']' => Word::Close,
        _ => Word::Sign(c),
    }
}

pub fn words(text: &str) -> Vec<Word<'_>> {
    let mut found = Vec::new();
    let mut rest = text;
    let mut after_dot = false;
    while let Some(c) = rest.chars().next() {
        let end = rest.find(is_sign).unwrap_or(rest.len());
        if end > 0 {
            found.push(if after_dot { Word::Behind(&rest[..end]) } else { Word::Name(&rest[..end]) });
            rest = &rest[end..];
            after_dot = false;
            continue;
        }
        after_dot = c == '.';
        if !c.is_whitespace() {
            found.push(sign(c));
        }
        rest = &rest[c.len_utf8()..];
    }
    found
}

/// A name between the blanks of an operator, `⊕` of `◌⊕◌`, stands for it too.
pub fn spelt(name: &str) -> Vec<String> {
    let is_operator = name.contains('◌') && !name.contains('«');
    let parts = name.split('◌').filter(|part| is_operator && !part.is_empty());
    std::iter::once(name).chain(parts).map(String::from).collect()
}

#[cfg(test)]
mod tests {
    use super::*;
    use Word::*;

    #[test]
    fn names_fields_and_signs() {
        let expected = [Name("r"), Sign('.'), Behind("place"), Name("+"), Open('('), Name("λ"), Name("x'"), Sign('.'), Name("a_b"), Close];
        assert_eq!(words("r.place + (λ x'. a_b)"), expected);
        assert_eq!(words("(f r).place.0"), [Open('('), Name("f"), Name("r"), Close, Sign('.'), Behind("place"), Sign('.'), Behind("0")]);
        assert_eq!(words("Meaning.Byte «K28_5»"), [Name("Meaning"), Sign('.'), Behind("Byte"), Name("«K28_5»")]);
    }

    #[test]
    fn operators() {
        assert_eq!(spelt("◌⊕◌"), ["◌⊕◌", "⊕"]);
        assert_eq!(spelt("line_after"), ["line_after"]);
    }

    #[test]
    fn comments() {
        assert_eq!(without_comment("f x -- says why"), "f x ");
        assert_eq!(without_comment("-- all"), "");
        assert_eq!(without_comment("a--b"), "a--b");
    }
}
