// The worked examples, each put to everything that can answer it: the static library, the two programs and the second implementation.
// Every answer is compared with the stored one. examples/README.md says how an example is written.
//
//   examples FOLDER TRANSLATOR RUNNER
//
// The second implementation answers every question. Beside it answer:
//   check      of a plan, vazhdumir_check_plan, and the translator where it asks the same; of loops, vazhdumir_check_loops, and
//              vazhdumir_need and vazhdumir_read_loops, which refuse alike
//   read       vazhdumir_check_plan, up to question 12: no entry for C reads a plan into a table
//   translate  vazhdumir_translate into a text of the bytes lent, then vazhdumir_read_loops into a table of the rows lent; the
//              translator, if nothing is said to be lent
//   command    the same, without the head
//   count      the lines that vazhdumir_translate puts, vazhdumir_check_loops and vazhdumir_need
//   value      the output cells behind a run of the translated loops, in each of the three orders
//   need       vazhdumir_need
//   run        vazhdumir_run, and vazhdumir_read_loops with vazhdumir_run_rows
//   mixings    the stepper of the tests (stepper.rs), from the rows that vazhdumir_read_loops puts; the ends of vazhdumir_run, in each of
//              the three orders, are among those of the mixings
//   fill       the runner, of loops that copy the input cells to the output
//   runner     the runner
//   look up    vazhdumir_look_up, and vazhdumir_look_up_in with the built-in words for themselves; where words are given, the latter
//              with these
// Of a words text, the check asks every entry that takes one, and both programs, with a plan and loops in those words. Where words are
// given beside a plan or loops, the entries that take them answer ([16.7]), and the programs with that `words.txt` ([16.8]).
use std::collections::{BTreeMap, BTreeSet};
use std::path::{Path, PathBuf};
use std::process::Command;

#[allow(dead_code)]
mod entries;
mod process;
#[allow(dead_code)]
mod reference;
#[allow(dead_code)]
mod stepper;
#[allow(dead_code)]
mod wording;

use process::output;

// ---- how an example is written

struct Example {
    name: String,
    // What is given, and last the question with its answer.
    lines: Vec<(String, String)>,
}

impl Example {
    // What is given under a name; the question is none of that.
    fn given(&self, name: &str) -> Option<&str> {
        let given = &self.lines[..self.lines.len() - 1];
        given.iter().find(|line| line.0 == name).map(|line| line.1.as_str())
    }

    fn number(&self, name: &str) -> Option<usize> {
        self.given(name).map(|number| number.parse().unwrap())
    }

    fn text(&self, name: &str) -> Vec<u8> {
        text(self.given(name).unwrap())
    }

    // The word to be searched for: no byte 10 ends it.
    fn word(&self) -> Vec<u8> {
        let mut bytes = line(self.given("word").unwrap());
        bytes.pop();
        bytes
    }

    // The words text, if one is given.
    fn words(&self) -> Option<Vec<u8>> {
        words_text(self.given("words")?)
    }

    // What is asked, of which text.
    fn question(&self) -> (&str, &str) {
        (&self.lines[0].0, &self.lines[self.lines.len() - 1].0)
    }

    fn answer(&self) -> &str {
        &self.lines[self.lines.len() - 1].1
    }

    fn store(&self) -> Vec<u8> {
        match self.given("store bytes") {
            Some(bytes) => bytes.split_whitespace().map(|byte| u8::from_str_radix(byte, 16).unwrap()).collect(),
            None => stored(&cells(self.given("store").unwrap())),
        }
    }

    // The store as the example shows it: by cells or by bytes.
    fn shown(&self, store: &[u8]) -> String {
        if self.given("store bytes").is_some() { joined(store.iter().map(|byte| format!("{byte:02x}"))) } else { joined(held(store)) }
    }
}

fn examples(section: &str, page: &str) -> Vec<Example> {
    let mut found: Vec<Example> = Vec::new();
    for line in page.lines().filter(|line| !line.is_empty() && !line.starts_with('#')) {
        if !line.starts_with(' ') {
            found.push(Example { name: format!("{section}/{line}"), lines: Vec::new() });
            continue;
        }
        let lines = &mut found.last_mut().unwrap().lines;
        if line.starts_with("    ") {
            lines.last_mut().unwrap().1 += &line[3..];
        } else {
            let (name, rest) = line.split_once(':').unwrap();
            lines.push((name.trim().into(), rest.trim().into()));
        }
    }
    found
}

// One line of a text, `""` and `\x20` written out.
fn line(written: &str) -> Vec<u8> {
    let mut parts = written.trim_matches('"').split("\\x");
    let mut bytes = parts.next().unwrap().as_bytes().to_vec();
    for part in parts {
        bytes.push(u8::from_str_radix(&part[..2], 16).unwrap());
        bytes.extend(part[2..].bytes());
    }
    bytes.push(b'\n');
    bytes
}

fn text(written: &str) -> Vec<u8> {
    let (lines, ended) = written.strip_suffix(" $").map_or((written, true), |lines| (lines, false));
    let (mut bytes, mut bracket) = (Vec::new(), 0);
    for word in lines.replace('(', "( ").replace(')', " )").split_whitespace() {
        let (row, times) = word.split_once('*').map_or((word, 1), |(row, times)| (row, times.parse().unwrap()));
        match row {
            "(" => bracket = bytes.len(),
            ")" => {
                let inside = bytes.split_off(bracket);
                bytes.extend(inside.repeat(times));
            }
            _ => bytes.extend(line(row).repeat(times)),
        }
    }
    if !ended {
        bytes.pop();
    }
    bytes
}

// A words text: the built-in words for themselves, with these changes; none at all if that is said.
fn words_text(written: &str) -> Option<Vec<u8>> {
    let mut lines: Vec<Vec<u8>> = reference::WORDS.iter().map(|built_in| line(&format!("{built_in},{built_in}"))).collect();
    let mut ended = true;
    for change in written.split_whitespace() {
        let parts: Vec<&str> = change.split(':').collect();
        let place = |part: usize| parts[part].parse::<usize>().unwrap();
        match parts[0] {
            "@none" => return None,
            "@nothing" => lines.clear(),
            "@cut" => ended = false,
            "@swap" => lines.swap(place(1), place(2)),
            "@drop" => drop(lines.remove(place(1))),
            "@add" => lines.push(line(parts[1])),
            _ => {
                let (built_in, own) = change.split_once('=').unwrap();
                let kind = reference::WORDS.iter().position(|word| *word == built_in).unwrap();
                lines[kind] = line(&format!("{built_in},{own}"));
            }
        }
    }
    let mut bytes = lines.concat();
    if !ended {
        bytes.pop();
    }
    Some(bytes)
}

fn cells(written: &str) -> Vec<i32> {
    written.split_whitespace().map(|cell| cell.parse().unwrap()).collect()
}

fn stored(cells: &[i32]) -> Vec<u8> {
    cells.iter().flat_map(|cell| cell.to_le_bytes()).collect()
}

fn held(store: &[u8]) -> Vec<i32> {
    store.chunks_exact(4).map(|four| i32::from_le_bytes(four.try_into().unwrap())).collect()
}

fn joined<T: ToString>(parts: impl IntoIterator<Item = T>) -> String {
    parts.into_iter().map(|part| part.to_string()).collect::<Vec<_>>().join(" ")
}

// ---- the static library

fn refused(answer: &str) -> bool {
    answer.starts_with("no,")
}

// The refusal, or `ok`.
fn accepted(answer: String) -> String {
    if refused(&answer) { answer } else { "ok".into() }
}

// An answer that several entries give; all of them, where they differ.
fn alike(mut answers: Vec<String>) -> String {
    answers.dedup();
    answers.join(" or ")
}

// The loops made from a plan in a text of so many bytes; or the refusal.
fn made(words: Option<&[u8]>, plan: &[u8], bytes: usize) -> Result<Vec<u8>, String> {
    let mut lent = vec![b'?'; bytes];
    let answer = entries::translate_in(words, plan, &mut lent);
    let put = if refused(&answer) { 0 } else { answer.parse().unwrap() };
    assert!(lent[put..].iter().all(|byte| *byte == b'?'), "bytes behind the loops have changed");
    lent.truncate(put);
    if refused(&answer) { Err(answer) } else { Ok(lent) }
}

type Table = (Vec<u8>, Vec<i32>);

// What is read into a table of so many rows; or the refusal.
fn read_into(rows: usize, read: impl Fn(&mut [u8], &mut [i32]) -> String) -> Result<Table, String> {
    let (mut kinds, mut numbers) = (vec![0; rows], vec![0; rows]);
    let answer = read(&mut kinds, &mut numbers);
    if refused(&answer) {
        return Err(answer);
    }
    let put = answer.parse().unwrap();
    Ok((kinds[..put].to_vec(), numbers[..put].to_vec()))
}

// A text of loops in a table of so many rows; or the refusal.
fn table(words: Option<&[u8]>, loops: &[u8], rows: usize) -> Result<Table, String> {
    read_into(rows, |kinds, numbers| entries::read_loops_in(words, loops, kinds, numbers))
}

fn translate(words: Option<&[u8]>, example: &Example) -> Result<String, String> {
    let loops = made(words, &example.text("plan"), example.number("lent bytes").unwrap_or(65536))?;
    table(words, &loops, example.number("lent rows").unwrap_or(4096))?;
    Ok(String::from_utf8(loops).unwrap())
}

fn count(words: Option<&[u8]>, plan: &[u8]) -> Result<String, String> {
    let loops = made(words, plan, 65536)?;
    let lines = loops.iter().filter(|byte| **byte == b'\n').count();
    Ok(format!("lines {lines} writes {} need {}", entries::check_loops_in(words, &loops), entries::need_in(words, &loops)))
}

// The output cells of the loops made from a plan; a store that is not clear shows nothing in them.
fn value(words: Option<&[u8]>, plan: &[u8], inputs: &[i32]) -> Result<String, String> {
    let loops = made(words, plan, 65536)?;
    let head: Vec<usize> = std::str::from_utf8(&loops).unwrap().lines().filter_map(|l| l.split_once(',')?.1.parse().ok()).collect();
    let need: usize = entries::need_in(words, &loops).parse().unwrap();
    let values = (0..3).map(|order| {
        let mut store = stored(&[inputs, &vec![-1; need - inputs.len()]].concat());
        let answer = entries::run_in(words, &loops, order, &mut store);
        if refused(&answer) { answer } else { joined(&held(&store)[inputs.len()..][..head[head[0] + 1]]) }
    });
    Ok(alike(values.collect()))
}

// A run's answer: the writes, and the store at the end; a refusal leaves it as it was.
fn ran(example: &Example, run: impl Fn(&[u8], u32, &mut [u8]) -> String) -> String {
    let mut store = example.store();
    let answer = run(&example.text("loops"), example.given("order").unwrap().parse().unwrap(), &mut store);
    if !refused(&answer) {
        return format!("writes {answer} store {}", example.shown(&store));
    }
    assert!(store == example.store(), "{}: a refusal has changed the store", example.name);
    answer
}

fn run_table(words: Option<&[u8]>, loops: &[u8], order: u32, store: &mut [u8]) -> String {
    table(words, loops, 4096).map_or_else(|refusal| refusal, |(kinds, numbers)| entries::run_rows(&kinds, &numbers, order, store))
}

// How many mixings loops have, and the ends that these lead to.
fn mixed((kinds, numbers): Table, store: &[i32]) -> (usize, BTreeSet<Vec<i32>>) {
    let loops = stepper::unfold(&kinds, &numbers, stepper::Layout::Own);
    let mixings = loops.mixings();
    (mixings.len(), mixings.iter().map(|mixing| loops.end(mixing, store)).collect())
}

fn mixings((count, ends): (usize, BTreeSet<Vec<i32>>)) -> String {
    format!("{count} mixings: {}", ends.iter().map(joined).collect::<Vec<_>>().join(" / "))
}

// The mixings of the rows that the library reads; or the order in which its run has an end that no mixing has.
fn library_mixings(words: Option<&[u8]>, loops: &[u8], store: &[i32]) -> Result<String, String> {
    let found = mixed(table(words, loops, 4096)?, store);
    for order in 0..3 {
        let mut bytes = stored(store);
        entries::run_in(words, loops, order, &mut bytes);
        if !found.1.contains(&held(&bytes)) {
            return Err(format!("order {order} ends with {}", joined(held(&bytes))));
        }
    }
    Ok(mixings(found))
}

// A plan and loops that pass, in the words of a words text.
fn spoken(words: &[u8]) -> (Vec<u8>, Vec<u8>) {
    let own = wording::own(words);
    let put = |rows: &str| wording::worded(&text(rows), &own);
    (put("plan,0 lit,7"), put("loops,0 cells,1 set,0 out,0 lit,0 lit,7"))
}

// A words text, put to every entry that takes one.
fn check_words(words: &[u8]) -> String {
    let ((plan, loops), words) = (spoken(words), Some(words));
    let answers = [
        entries::check_plan_in(words, &plan),
        entries::translate_in(words, &plan, &mut [0; 100]),
        entries::check_loops_in(words, &loops),
        entries::read_loops_in(words, &loops, &mut [0; 6], &mut [0; 6]),
        entries::need_in(words, &loops),
        entries::run_in(words, &loops, 0, &mut [0; 4]),
        entries::look_up_in(words, b"plan"),
    ];
    alike(answers.map(accepted).to_vec())
}

// Loops, put to the entries that ask the same questions of them.
fn check_loops(words: Option<&[u8]>, loops: &[u8]) -> String {
    let read = table(words, loops, 4096).map_or_else(|refusal| refusal, |_| "ok".into());
    alike(vec![accepted(entries::check_loops_in(words, loops)), accepted(entries::need_in(words, loops)), read])
}

// [17.4] What the number told of a search means: the kind is one less than the rows compared.
fn searched(answer: String) -> String {
    match answer.parse::<i64>() {
        Err(_) => answer,
        Ok(number) if number >= 65536 => format!("row {}, compared {}", number - 65536 - 1, number - 65536),
        Ok(number) => all_compared(format!("none, compared {number}")),
    }
}

// [17.2] `all` for as many rows as the table has, where the word is not listed.
fn all_compared(answer: String) -> String {
    if answer == format!("none, compared {}", reference::WORDS.len()) { "none, compared all".into() } else { answer }
}

// A word, searched for among the own words, or by both entries among the built-in ones.
fn look_up(words: Option<&[u8]>, word: &[u8]) -> String {
    let by = |words: Option<&[u8]>| searched(entries::look_up_in(words, word));
    if words.is_some() { by(words) } else { alike(vec![by(None), by(words_text("").as_deref())]) }
}

fn library(example: &Example) -> Option<String> {
    let either = |answer: Result<String, String>| answer.unwrap_or_else(|refusal| refusal);
    let words = example.words();
    let words = words.as_deref();
    Some(match example.question() {
        ("words", "check") => check_words(words.unwrap()),
        ("word", "look up") => look_up(words, &example.word()),
        ("plan", "check") => accepted(entries::check_plan_in(words, &example.text("plan"))),
        ("plan", "read") => Some(entries::check_plan_in(words, &example.text("plan"))).filter(|answer| refused(answer))?,
        ("plan", "translate") => on_one_line(&either(translate(words, example))),
        ("plan", "command") => command(&either(translate(words, example))),
        ("plan", "count") => either(count(words, &example.text("plan"))),
        ("plan", "value") => either(value(words, &example.text("plan"), &cells(example.given("inputs").unwrap_or("")))),
        ("loops", "check") => check_loops(words, &example.text("loops")),
        ("loops", "need") => entries::need_in(words, &example.text("loops")),
        ("loops", "run") => {
            let text = ran(example, |loops, order, store| entries::run_in(words, loops, order, store));
            alike(vec![text, ran(example, |loops, order, store| run_table(words, loops, order, store))])
        }
        ("loops", "mixings") => either(library_mixings(words, &example.text("loops"), &held(&example.store()))),
        _ => return None,
    })
}

// ---- the two programs

struct Programs {
    translator: PathBuf,
    runner: PathBuf,
    folder: PathBuf,
}

impl Programs {
    // A program in the folder of its files; `words.txt` stands there if a words text is given.
    fn command(&self, program: &Path, words: Option<&[u8]>) -> Command {
        let file = self.folder.join("words.txt");
        match words {
            Some(text) => std::fs::write(file, text).unwrap(),
            None => drop(std::fs::remove_file(file)),
        }
        let mut command = Command::new(program);
        command.current_dir(&self.folder);
        command
    }

    fn translator(&self, words: Option<&[u8]>, plan: &[u8]) -> String {
        output(self.command(&self.translator, words), plan)
    }

    fn runner(&self, words: Option<&[u8]>, loops: &[u8], values: &[u8]) -> String {
        std::fs::write(self.folder.join("loops.txt"), loops).unwrap();
        std::fs::write(self.folder.join("values.txt"), values).unwrap();
        on_one_line(&output(self.command(&self.runner, words), b""))
    }

    // A words text, put to both programs.
    fn check_words(&self, words: &[u8]) -> String {
        let ((plan, loops), words) = (spoken(words), Some(words));
        alike(vec![accepted(on_one_line(&self.translator(words, &plan))), accepted(self.runner(words, &loops, b""))])
    }

    // The input cells of a values file, by loops that copy them.
    fn fill(&self, values: &[u8], cells: usize) -> String {
        let loops = format!("loops,1 cells,{cells} cells,{cells} par,{cells} set,0 out,0 ctr,0 in,0 ctr,0");
        let printed = self.runner(None, &text(&loops), values);
        if refused(&printed) {
            return printed;
        }
        joined(printed.split_whitespace().take(cells).map(|line| line.split_once(',').unwrap().1))
    }

    fn answer(&self, example: &Example) -> Option<String> {
        let words = example.words();
        let words = words.as_deref();
        Some(match example.question() {
            ("words", "check") => self.check_words(words.unwrap()),
            ("plan", "check") => {
                let printed = on_one_line(&self.translator(words, &example.text("plan")));
                if ["no,10,0", "no,11,0", "no,18,0"].contains(&printed.as_str()) { "ok".into() } else { accepted(printed) }
            }
            ("plan", "translate") if example.given("lent rows").is_none() => {
                on_one_line(&self.translator(words, &example.text("plan")))
            }
            ("plan", "command") => command(&self.translator(words, &example.text("plan"))),
            ("values", "fill") => self.fill(&example.text("values"), example.number("input cells").unwrap()),
            ("loops", "runner") => self.runner(words, &example.text("loops"), &example.text("values")),
            _ => return None,
        })
    }
}

// Lines with blanks between them.
fn on_one_line(lines: &str) -> String {
    joined(lines.split_whitespace())
}

// Loops without their head.
fn command(loops: &str) -> String {
    joined(loops.split_whitespace().filter(|line| !line.starts_with("loops,") && !line.starts_with("cells,")))
}

// ---- the second implementation

fn second(example: &Example) -> String {
    let (of, asked) = example.question();
    let given = |name: &str| example.given(name).unwrap_or("").replace(' ', ",");
    let words = example.words();
    let words = words.as_deref();
    let reply = |question: &[&str]| {
        let question: Vec<String> = question.iter().map(|word| word.to_string()).collect();
        let text = match of {
            "words" => Vec::new(),
            "word" => example.word(),
            _ => example.text(of),
        };
        on_one_line(reference::reply_in(words, &question, &text).trim_start_matches("ok "))
    };
    match asked {
        "check" => reply(&[of]),
        "read" => reply(&["read", &given("lent rows")]),
        "translate" if example.given("lent rows").is_some() => reply(&["tr", &given("lent rows"), &given("lent bytes")]),
        "translate" | "count" | "need" => reply(&[asked]),
        "look up" => all_compared(reply(&[asked])),
        "command" => command(&reply(&["translate"])),
        "value" => reply(&["value", &given("inputs")]),
        "run" => ran(example, |loops, order, store| reference::run_text_in(words, loops, order, store)),
        "mixings" => {
            let loops = example.text("loops");
            let rows = read_into(4096, |kinds, numbers| reference::read_loops_in(words, &loops, kinds, numbers));
            rows.map_or_else(|refusal| refusal, |rows| mixings(mixed(rows, &held(&example.store()))))
        }
        "fill" => reply(&["values", &given("input cells")]),
        "runner" => on_one_line(&reference::runner_in(words, &example.text("loops"), &example.text("values"))),
        _ => panic!("{}: nobody answers {asked}", example.name),
    }
}

fn read(folder: &str) -> Vec<Example> {
    let mut pages: Vec<PathBuf> = std::fs::read_dir(folder).unwrap().map(|entry| entry.unwrap().path()).collect();
    pages.retain(|page| page.extension().is_some_and(|ending| ending == "txt"));
    pages.sort();
    let section = |page: &PathBuf| examples(page.file_stem().unwrap().to_str().unwrap(), &std::fs::read_to_string(page).unwrap());
    pages.iter().flat_map(section).collect()
}

fn main() {
    let args: Vec<String> = std::env::args().collect();
    let folder = std::env::temp_dir().join(format!("vazhdumir-examples-{}", std::process::id()));
    std::fs::create_dir_all(&folder).unwrap();
    let program = |name: &str| Path::new(name).canonicalize().unwrap();
    let programs = Programs { translator: program(&args[2]), runner: program(&args[3]), folder };
    let examples = read(&args[1]);
    let (mut kinds, mut answered, mut differ) = (BTreeMap::<_, u64>::new(), [0; 3], 0);
    for example in &examples {
        let answers = [library(example), programs.answer(example), Some(second(example))];
        for (i, found) in answers.into_iter().enumerate() {
            let Some(found) = found else { continue };
            answered[i] += 1;
            if found != example.answer() {
                let who = ["the library", "a program", "the second implementation"][i];
                println!("{}: {} is stored, but {who} answers {found}", example.name, example.answer());
                differ += 1;
            }
        }
        *kinds.entry(example.question()).or_default() += 1;
    }
    std::fs::remove_dir_all(&programs.folder).unwrap();
    if differ > 0 {
        std::process::exit(1);
    }
    let kinds: Vec<String> = kinds.iter().map(|((of, asked), count)| format!("{count} {of} {asked}")).collect();
    let [library, programs, second] = answered;
    println!(
        "{} worked examples answered as stored, {library} by the library, {programs} by the programs, {second} by the second \
         implementation: {}",
        examples.len(),
        kinds.join(", ")
    );
}
