// The numbers of the requirements: they rise without a gap, and every one that a document cites is there. The tables of words and of
// refusals are those of the second implementation and of the header for C.
//
//   requirements REQUIREMENTS HEADER DOCUMENT..
#[allow(dead_code)]
mod reference;

const SORTS: [&str; 9] = ["plan", "type", "term", "loops", "cells", "command", "place", "value", "offset"];

// The number N.M with which a text begins.
fn rule(text: &str) -> Option<(u32, u32)> {
    let (part, rest) = text.split_once('.')?;
    let digits = rest.len() - rest.trim_start_matches(|c: char| c.is_ascii_digit()).len();
    Some((part.parse().ok()?, rest[..digits].parse().ok()?))
}

// The rules, in the order in which they stand.
fn rules(page: &str) -> Vec<(u32, u32)> {
    page.lines().filter_map(|l| rule(l.strip_prefix("**").or(l.strip_prefix("| "))?)).collect()
}

// The rules cited: in parentheses, or anywhere where `all` is said.
fn cited(page: &str, all: bool) -> Vec<(u32, u32)> {
    let mut found = Vec::new();
    let mut inside = false;
    for word in page.split_inclusive(|c: char| !(c.is_ascii_digit() || c == '.')) {
        if all || inside {
            found.extend(rule(word.trim_end_matches(|c: char| !c.is_ascii_digit())));
        }
        inside = word.ends_with('(') || inside && !word.ends_with(')');
    }
    found
}

// The names that the header gives behind this beginning, with their numbers.
fn named(header: &str, beginning: &str) -> Vec<(String, u32)> {
    let items = header.split(beginning).skip(1);
    items.filter_map(|i| i.split([',', '\n', ' ']).next().zip(i.split(" = ").nth(1))).map(|(name, number)| {
        let digits: String = number.chars().take_while(|c| c.is_ascii_digit()).collect();
        (name.to_lowercase(), digits.parse().unwrap())
    }).collect()
}

// The questions: a rule that has a name. In part 10 the rule has the question's number; elsewhere the number stands behind the name.
fn questions(page: &str) -> Vec<(String, u32)> {
    let heads = page.lines().filter_map(|line| line.strip_prefix("**")?.split_once(".**"));
    let question = |(head, behind): (&str, &str)| {
        let (rule, name) = head.split_once(' ')?;
        let number = rule.strip_prefix("10.").or_else(|| behind.strip_prefix(" Question ")?.split(':').next())?;
        Some((name.to_lowercase().replace(' ', "_"), number.parse().ok()?))
    };
    heads.filter_map(question).collect()
}

// The table of words: kind, word, sorts with operand counts.
fn words(page: &str) -> Vec<(u32, String, String)> {
    let rows = page.lines().filter_map(|l| {
        let columns: Vec<&str> = l.split('|').map(str::trim).collect();
        let word = columns.get(2)?.strip_prefix('`')?.strip_suffix('`')?;
        Some((columns[1].parse().ok()?, word.to_string(), columns[3].to_string()))
    });
    rows.collect()
}

fn sorts(word: &'static str) -> String {
    let found = SORTS.iter().filter_map(|s| Some(format!("{s} {}", reference::operand_count(s, word)?)));
    found.collect::<Vec<_>>().join(", ")
}

fn main() {
    let args: Vec<String> = std::env::args().collect();
    let read = |file: &String| std::fs::read_to_string(file).unwrap();
    let (page, header) = (read(&args[1]), read(&args[2]));
    let rules = rules(&page);
    for pair in rules.windows(2) {
        let ((part, n), next) = (pair[0], pair[1]);
        assert!(next == (part, n + 1) || next == (part + 1, 1), "behind {part}.{n} stands {next:?}");
    }
    for (document, all) in std::iter::once((&args[1], true)).chain(args[3..].iter().map(|d| (d, false))) {
        for cite in cited(&read(document), all) {
            assert!(rules.contains(&cite), "{document} cites {cite:?}");
        }
    }
    let table: Vec<(u32, String, String)> = (0..).zip(reference::WORDS).map(|(i, w)| (i, w.to_string(), sorts(w))).collect();
    assert_eq!(words(&page), table);
    let kinds: Vec<(String, u32)> = table.into_iter().map(|(i, word, _)| (word, i)).collect();
    assert_eq!(named(&header, "VAZHDUMIR_WORD_"), kinds);
    let questions = questions(&page);
    assert_eq!(questions.iter().map(|q| q.1).collect::<Vec<_>>(), (1..=18).collect::<Vec<_>>());
    assert_eq!(named(&header, "VAZHDUMIR_REFUSAL_"), questions);
    println!("{} requirements; the header names their {} kinds and {} refusals", rules.len(), kinds.len(), questions.len());
}
