// Checks the examples of the documents: blocks that stand behind one another with no line between them are one example. In a block,
// lines may stand behind one another.
//
//   plan loops             the loops made of the plan; then, with values or without, what the runner prints
//   plan answer            what the translator prints
//   loops values printed   what the runner prints; values may be missing
//   loops answer           what the runner prints without values
//   plan|loops rows answer a reading into a table of so many rows
//   plan bytes answer      a translation into a text of so many bytes
//   loops order answer     a run in this order, on a store of the need
//   console                commands behind `$ `, each with the lines that it prints
//   NAME.EXTENSION         a file for the commands: the first word of each line
//
// The programs, the library and the second implementation are asked, each that can be. Commands are typed in one folder, from the
// first page on; `target` and `examples` stand in it.
//
// The garage that the guide has in scalars and in vectors is run with other values too: the amperes of both plans are the same.
//
//   documents TARGET FILE..
use std::path::{Path, PathBuf};
use std::process::Command;

#[allow(dead_code)]
mod entries;
#[allow(dead_code)]
mod plans;
mod process;
#[allow(dead_code)]
mod reference;

use process::output;

// A block: its name and its lines as they stand.
type Block = (String, Vec<String>);

fn examples(page: &str) -> Vec<Vec<Block>> {
    let mut found: Vec<Vec<Block>> = Vec::new();
    let mut joins = false;
    let mut lines = page.lines();
    while let Some(line) = lines.next() {
        let Some(name) = line.strip_prefix("```") else {
            joins = false;
            continue;
        };
        let inside = lines.by_ref().take_while(|l| *l != "```").map(String::from).collect();
        if !joins {
            found.push(Vec::new());
        }
        found.last_mut().unwrap().push((name.into(), inside));
        joins = true;
    }
    found
}

// The words of a block, one a line.
fn text(block: &Block) -> String {
    block.1.iter().flat_map(|l| l.split_whitespace()).map(|word| format!("{word}\n")).collect()
}

fn number(block: &Block) -> usize {
    text(block).trim_end().parse().unwrap()
}

fn same(what: &str, of: &str, found: &str, shown: &str) {
    if found.trim_end() != shown.trim_end() {
        println!("{what} of\n{}\nis\n{found}\nand not\n{shown}", of.trim_end());
        std::process::exit(1);
    }
}

struct Tester {
    target: PathBuf,
    folder: PathBuf,
    commands: usize,
}

impl Tester {
    fn translated(&self, plan: &str, shown: &str) {
        same("the translation", plan, &reference::reply(&["translate".into()], plan.as_bytes()), shown);
        same("the translator's answer", plan, &output(Command::new(self.target.join("bin/translator")), plan.as_bytes()), shown);
    }

    fn ran(&self, loops: &str, values: &str, shown: &str) {
        same("the run", loops, &reference::runner(loops.as_bytes(), values.as_bytes()), shown);
        same("the runner's answer", loops, &self.run(loops, values), shown);
    }

    // What the runner prints.
    fn run(&self, loops: &str, values: &str) -> String {
        let folder = self.folder.join("run");
        std::fs::create_dir_all(&folder).unwrap();
        std::fs::write(folder.join("loops.txt"), loops).unwrap();
        std::fs::write(folder.join("values.txt"), values).unwrap();
        let mut runner = Command::new(self.target.join("bin/runner"));
        runner.current_dir(&folder);
        output(runner, b"")
    }

    // [18.8] A plan in scalars and the same in vectors, run with the same random values: the runner prints the same `cell,number` lines for
    // both, whatever the writes. Only the loops of the second have lanes, and the cells printed are not the same for all values.
    fn twins(&self, scalars: &str, vectors: &str, turns: u64) -> String {
        let [first, second] = [scalars, vectors].map(|name| {
            let plan = std::fs::read(Path::new("examples").join(name)).unwrap();
            output(Command::new(self.target.join("bin/translator")), &plan)
        });
        let has_lanes = |loops: &str| loops.lines().any(|row| row.starts_with("lanes,"));
        assert!(!has_lanes(&first) && has_lanes(&second), "{vectors} alone has lanes");
        let mut seen: Vec<String> = Vec::new();
        let mut writes = Vec::new();
        for seed in 0..turns {
            let mut numbers = plans::Numbers::new(seed);
            let values: String = (0..input_cells(&first)).map(|cell| format!("{cell},{}\n", numbers.below(141) as i32 - 20)).collect();
            let [one, other] = [&first, &second].map(|loops| {
                let printed = self.run(loops, &values);
                let (cells, count) = printed.split_once("writes,").expect("the runner tells the writes");
                (cells.to_string(), count.trim_end().to_string())
            });
            same(&format!("what {vectors} prints"), &values, &other.0, &one.0);
            writes = vec![one.1, other.1];
            seen.push(one.0);
        }
        assert!(seen.iter().any(|cells| *cells != seen[0]), "{scalars} prints the same for all values");
        let bays = seen[0].lines().count();
        format!("examples/{scalars} and {vectors}: the same amperes in {bays} bays for {turns} choices of values; writes {}", writes.join(" and "))
    }

    // The lines that each command prints; they go up to the next command.
    fn typed(&mut self, lines: &[String]) {
        let mut rest = lines;
        while let Some((first, behind)) = rest.split_first() {
            let command = first.strip_prefix("$ ").expect("a console begins with a command");
            let printed = behind.iter().take_while(|l| !l.starts_with("$ ")).count();
            let mut shell = Command::new("sh");
            shell.args(["-c", command]).current_dir(&self.folder);
            same("what is printed", first, &output(shell, b""), &behind[..printed].join("\n"));
            self.commands += 1;
            rest = &behind[printed..];
        }
    }

    fn check(&mut self, example: &[Block]) {
        let names: Vec<&str> = example.iter().map(|b| b.0.as_str()).collect();
        let first = text(&example[0]);
        let last = text(&example[example.len() - 1]);
        match names[..] {
            ["plan", "answer"] => self.translated(&first, &last),
            ["plan", "loops"] => self.translated(&first, &last),
            ["plan", "loops", ..] => {
                self.translated(&first, &text(&example[1]));
                self.check(&example[1..]);
            }
            ["loops", "answer"] | ["loops", "printed"] => self.ran(&first, "", &last),
            ["loops", "values", "printed"] => self.ran(&first, &text(&example[1]), &last),
            ["plan", "rows", "answer"] => same("a table", &first, &reference::read_plan(first.as_bytes(), number(&example[1])), &last),
            ["loops", "rows", "answer"] => read(&first, number(&example[1]), &last),
            ["plan", "bytes", "answer"] => lent(&first, number(&example[1]), &last),
            ["loops", "order", "answer"] => ordered(&first, number(&example[1]) as u32, &last),
            ["console"] => self.typed(&example[0].1),
            [name] if name.contains('.') => {
                let rows = example[0].1.iter().filter_map(|l| l.split_whitespace().next());
                std::fs::write(self.folder.join(name), rows.map(|row| format!("{row}\n")).collect::<String>()).unwrap();
            }
            _ => panic!("no such example: {names:?}"),
        }
    }
}

// How many cells the inputs of loops have.
fn input_cells(loops: &str) -> usize {
    let mut numbers = loops.lines().map(|row| row.split_once(',').unwrap().1.parse::<usize>().unwrap());
    let inputs = numbers.next().unwrap();
    numbers.take(inputs).sum()
}

// Loops read into a table of so many rows.
fn read(loops: &str, rows: usize, shown: &str) {
    let (mut kinds, mut numbers) = (vec![0; rows], vec![0; rows]);
    same("a table", loops, &reference::read_loops(loops.as_bytes(), &mut kinds, &mut numbers), shown);
    same("a table", loops, &entries::read_loops(loops.as_bytes(), &mut kinds, &mut numbers), shown);
}

// A plan translated into a text of so many bytes.
fn lent(plan: &str, bytes: usize, shown: &str) {
    let made = reference::reply(&["tr".into(), "4096".into(), bytes.to_string()], plan.as_bytes());
    let wanted = if made.starts_with("no,") { made } else { made.len().to_string() };
    same("a lent text", plan, &wanted, shown);
    same("a lent text", plan, &entries::translate(plan.as_bytes(), &mut vec![0; bytes]), shown);
}

// A run in this order.
fn ordered(loops: &str, order: u32, shown: &str) {
    let need: usize = entries::need(loops.as_bytes()).parse().unwrap();
    same("a run", loops, &reference::run_text(loops.as_bytes(), order, &mut vec![0; 4 * need]), shown);
    same("a run", loops, &entries::run(loops.as_bytes(), order, &mut vec![0; 4 * need]), shown);
}

// The words that stand in examples that are run.
fn words_run(page: &str) -> Vec<String> {
    let run = |e: &Vec<Block>| e.last().unwrap().0 == "printed";
    let rows = examples(page).into_iter().filter(run).flatten().flat_map(|b| text(&b).lines().map(String::from).collect::<Vec<_>>());
    rows.filter_map(|row| Some(row.split_once(',')?.0.to_string())).collect()
}

fn main() {
    let args: Vec<String> = std::env::args().collect();
    let folder = std::env::temp_dir().join(format!("vazhdumir-documents-{}", std::process::id()));
    std::fs::create_dir_all(&folder).unwrap();
    let target = Path::new(&args[1]).canonicalize().unwrap();
    std::os::unix::fs::symlink(&target, folder.join("target")).unwrap();
    std::os::unix::fs::symlink(Path::new("examples").canonicalize().unwrap(), folder.join("examples")).unwrap();
    let mut tester = Tester { target, folder, commands: 0 };
    let mut checked = 0;
    for file in &args[2..] {
        let page = std::fs::read_to_string(file).unwrap();
        let before = tester.commands;
        for example in examples(&page) {
            tester.check(&example);
            checked += 1;
        }
        if file.ends_with("README.md") {
            println!("the walk of {file}: {} commands print what it shows", tester.commands - before);
        }
        if file.ends_with("GUIDE.md") {
            let run = words_run(&page);
            let missing: Vec<&str> = reference::WORDS.into_iter().filter(|w| !run.iter().any(|r| r == w)).collect();
            assert!(missing.is_empty(), "{file} has no value for {missing:?}");
        }
    }
    let guide = ["german.words", "estate.plan", "estate.vectors.plan"].map(|name| ("docs/GUIDE.md", name));
    for (page, name) in [("README.md", "garage.plan")].into_iter().chain(guide) {
        let shown = std::fs::read_to_string(tester.folder.join(name)).unwrap();
        same("the file shown", page, &shown, &std::fs::read_to_string(Path::new("examples").join(name)).unwrap());
        println!("{page} has the lines of examples/{name}");
    }
    println!("{}", tester.twins("estate.plan", "estate.vectors.plan", 50));
    assert!(!tester.folder.join("words.txt").exists(), "the last page leaves a words file behind");
    std::fs::remove_dir_all(&tester.folder).unwrap();
    println!("{checked} examples of the documents hold");
}
