// The two programs on what they may find: files that are absent, folders, links to nothing, damaged or too long. What they print is
// compared with the second implementation, for which a file that cannot be opened is empty ([11.2]), and a words file that cannot is none
// ([16.8]).
//
//   files TRANSLATOR RUNNER COUNT
use std::collections::BTreeMap;
use std::path::{Path, PathBuf};
use std::process::Command;

#[allow(dead_code)]
mod commands;
#[allow(dead_code)]
mod plans;
mod process;
#[allow(dead_code)]
mod reference;
#[allow(dead_code)]
mod wording;

use plans::Numbers;
use process::output;
use reference::WORDS;
use Found::{Absent, Folder, Link, Text};

// What stands under a file's name.
#[derive(Clone, Debug)]
enum Found {
    Absent,
    Folder,
    Link,
    Text(Vec<u8>),
}

impl Found {
    fn place(&self, path: &Path) {
        let _ = std::fs::remove_file(path);
        let _ = std::fs::remove_dir(path);
        match self {
            Absent => {}
            Folder => std::fs::create_dir(path).unwrap(),
            Link => std::os::unix::fs::symlink("nothing", path).unwrap(),
            Text(text) => std::fs::write(path, text).unwrap(),
        }
    }

    fn text(&self) -> &[u8] {
        if let Text(text) = self { text } else { &[] }
    }

    // What is given of a words file: nothing where it cannot be opened. A folder opens, and has no bytes.
    fn words(&self) -> Option<&[u8]> {
        if matches!(self, Absent | Link) { None } else { Some(self.text()) }
    }
}

fn same(found: String, wanted: &str, of: impl std::fmt::Debug) {
    if found != wanted {
        println!("{found}but {wanted}of {of:?}");
        std::process::exit(1);
    }
}

struct Runner {
    program: PathBuf,
    folder: PathBuf,
    files: u64,
    // How often each refusal was given of loops.txt, and how often of values.txt.
    refused: [BTreeMap<u64, u64>; 2],
}

impl Runner {
    fn compare(&mut self, loops: &Found, values: &Found) {
        loops.place(&self.folder.join("loops.txt"));
        values.place(&self.folder.join("values.txt"));
        let mut command = Command::new(&self.program);
        command.current_dir(&self.folder);
        let wanted = reference::runner(loops.text(), values.text());
        same(output(command, b""), &wanted, (loops, values));
        self.files += 1;
        if let Some(refusal) = wanted.strip_prefix("no,") {
            let number = refusal.split(',').next().unwrap().parse().unwrap();
            let of_values = number != 14 && reference::writes(loops.text()).parse::<u64>().is_ok();
            *self.refused[of_values as usize].entry(number).or_default() += 1;
        }
    }

    // Every pair of these.
    fn pairs(&mut self, loops: &[Found], values: &[Found]) {
        for l in loops {
            for v in values {
                self.compare(l, v);
            }
        }
    }

    // [11.5] Loops with two input cells, loops with none and none at all, beside values of every kind ([11.3], [11.4], [10.15]).
    fn named(&mut self) {
        let lines = |list: &str| Text(list.split(' ').map(|line| format!("{line}\n")).collect::<String>().into_bytes());
        let loops = [
            lines("loops,2 cells,1 cells,1 cells,2 seq,0 set,0 out,0 lit,1 in,0 lit,0 set,0 out,0 lit,0 in,1 lit,0"),
            lines("loops,0 cells,2 set,0 out,0 lit,1 lit,-3"),
            Absent,
            Folder,
            Link,
            Text(plans::filled(65536, "lit,-2147483648\n")),
            Text(plans::filled(65537, "lit,-2147483648\n")),
            Text(commands::long(4096)),
            Text(commands::long(4097)),
        ];
        let mut values = vec![Absent, Folder, Link, Text(Vec::new()), Text(b"junk".to_vec()), Text(b"0,4\n1,5".to_vec())];
        let good = ["0,4 1,5", "1,-2147483648 0,2147483647"];
        let badly_written =
            ["junk", "0,4 1,-0", "0,4 -1,5", "0,4 in,5", "0,4 1,5 x", "0,4 2147483648,5", "0,4 1,5 ", "0;4 1,5", "00,4 1,5"];
        let other_cells = ["0,4", "1,4", "0,4 0,5", "0,4 2,5", "0,4 1,5 2,6", "0,4 1,5 1,5", "0,4 2147483647,5"];
        values.extend(good.iter().chain(&badly_written).chain(&other_cells).map(|list| lines(list)));
        values.extend([65536, 65537, 70000].map(|size| Text(plans::filled(size, "0,4\n"))));
        self.pairs(&loops, &values);
    }

    // Random loops, some damaged, beside values that are whole or damaged. How many of those that were run have lanes.
    fn random(&mut self, count: u64) -> u64 {
        let mut lanes = plans::Share::of_lanes();
        for seed in 0..count {
            let mut numbers = Numbers::new(seed ^ 0x7777);
            let made = reference::reply(&["translate".into()], &plans::plan(seed)).into_bytes();
            let whole = if seed % 2 == 0 { made } else { commands::loops(seed) };
            let head: Vec<u64> = whole.split(|b| *b == 10).take(10).filter_map(number).collect();
            let cells = if whole.starts_with(b"no") { 1 } else { head[1..=head[0] as usize].iter().sum() };
            let lines: String = (0..cells).map(|i| format!("{i},{}\n", numbers.below(2001) as i64 - 1000)).collect();
            let values = Text(if cells == 0 { b"junk".to_vec() } else { lines.into_bytes() });
            let broken = Text(if cells == 0 { Vec::new() } else { plans::damage(values.text(), &mut numbers) });
            let damaged = Text(plans::damage(&whole, &mut numbers));
            if reference::writes(&whole).parse::<u64>().is_ok() {
                lanes.take(&whole);
            }
            self.pairs(&[Text(whole)], &[values.clone(), broken]);
            self.compare(&damaged, &values);
        }
        lanes.count()
    }
}

fn number(line: &[u8]) -> Option<u64> {
    std::str::from_utf8(line).ok()?.split_once(',')?.1.parse().ok()
}

// [11.1] Plans about as long as a text may be, and longer: all of one line, of lines that pass until the end is seen, and the
// longest that is accepted of its kind, alone and with more behind it.
fn long_plans() -> Vec<Vec<u8>> {
    let sum = format!("plan,0\n{}{}", "add,0\n".repeat(127), "lit,-2147483648\n".repeat(128)).into_bytes();
    let mut texts = vec![sum.clone()];
    for size in [4095, 4096, 4097, 5000, 65536, 70000] {
        for line in ["lit,1\n", "lit,-2147483648\n", "redseq,-2147483648\n"] {
            texts.push(plans::filled(size, line));
            texts.push([b"plan,0\n".to_vec(), plans::filled(size - 7, line)].concat());
        }
        texts.push(vec![b'\n'; size]);
        texts.push(vec![b'a'; size]);
        texts.push([sum.clone(), plans::filled(size - sum.len(), "lit,1\n")].concat());
        texts.push([plans::filled(4096, "lit,-2147483648\n"), vec![b'x'; size.saturating_sub(4096)]].concat());
    }
    texts
}

// ---- words files

// Both programs in one folder, and how often each refusal was printed.
struct Worded {
    translator: PathBuf,
    runner: PathBuf,
    folder: PathBuf,
    files: u64,
    refused: BTreeMap<u64, u64>,
}

impl Worded {
    // A program with this words file; what it prints is compared.
    fn compare(&mut self, words: &Found, program: PathBuf, input: &[u8], wanted: String) -> String {
        words.place(&self.folder.join("words.txt"));
        let mut command = Command::new(program);
        command.current_dir(&self.folder);
        same(output(command, input), &wanted, (words, String::from_utf8_lossy(input)));
        self.files += 1;
        if let Some(refusal) = wanted.strip_prefix("no,") {
            *self.refused.entry(refusal.split(',').next().unwrap().parse().unwrap()).or_default() += 1;
        }
        wanted
    }

    fn translate(&mut self, words: &Found, plan: &[u8]) -> String {
        let wanted = reference::reply_in(words.words(), &["translate".into()], plan);
        self.compare(words, self.translator.clone(), plan, wanted)
    }

    fn run(&mut self, words: &Found, loops: &Found, values: &Found) -> String {
        loops.place(&self.folder.join("loops.txt"));
        values.place(&self.folder.join("values.txt"));
        let wanted = reference::runner_in(words.words(), loops.text(), values.text());
        self.compare(words, self.runner.clone(), b"", wanted)
    }

    // Every words file beside texts in the built-in words and in its own, empty ones and bad ones. A refused words file is all that is
    // printed, whatever stands beside it ([16.6]).
    fn named(&mut self) {
        let lines = |list: &str| list.split(' ').map(|line| format!("{line}\n")).collect::<String>().into_bytes();
        let plan = lines("plan,2 num,0 vec,2 mapvec,0 in,1 add,0 var,0 in,0");
        let loops = lines("loops,2 cells,1 cells,2 cells,2 lanes,2 set,0 out,0 times,1 ctr,0 add,0 in,1 times,1 ctr,0 in,0 lit,0");
        assert_eq!(reference::reply(&["translate".into()], &plan).into_bytes(), loops);
        for words in words_files() {
            let own = wording::own(words.text());
            let refused = reference::reply_in(words.words(), &["words".into()], &[]).replace("ok\n", "");
            let mut printed = Vec::new();
            for text in [plan.clone(), wording::worded(&plan, &own), lines("plan,0"), Vec::new(), plans::filled(4097, "lit,1\n")] {
                printed.push(self.translate(&words, &text));
            }
            let texts = [Text(loops.clone()), Text(wording::worded(&loops, &own)), Text(lines("loops,0")), Absent, Folder];
            for text in texts {
                for values in [Text(lines("0,41 1,7 2,-7")), Text(lines("x")), Absent] {
                    printed.push(self.run(&words, &text, &values));
                }
            }
            assert!(refused.is_empty() || printed.iter().all(|line| *line == refused), "{printed:?} of {words:?}");
        }
    }

    // The German words file and plan of examples/: the loops are the rows that the built-in words give, and the amperes are the same.
    fn german(&mut self) -> usize {
        let file = |name: &str| std::fs::read(Path::new("examples").join(name)).unwrap();
        let (words, plan) = (file("german.words"), file("garage.german.plan"));
        let own = wording::own(&words);
        let garage = file("garage.plan");
        assert!(plan == wording::worded(&garage, &own), "examples/garage.german.plan is examples/garage.plan in German");
        let built_in = self.translate(&Absent, &garage).into_bytes();
        let german = self.translate(&Text(words.clone()), &plan).into_bytes();
        assert!(german == wording::worded(&built_in, &own) && german != built_in, "the loops of garage.german.plan");
        let inputs = [64, 40, 32, 11, 16, 0, 7, 20, 10, 6, 60, 16, 16, 5, 32, 16, 0];
        let values = Text((0..).zip(inputs).map(|(cell, value)| format!("{cell},{value}\n")).collect::<String>().into_bytes());
        let amperes = self.run(&Absent, &Text(built_in.clone()), &values);
        assert_eq!(self.run(&Text(words.clone()), &Text(german), &values), amperes);
        assert_eq!(self.run(&Text(words), &Text(built_in), &values), "no,2,1\n");
        amperes.lines().count() - 1
    }
}

// [16.8] What may stand under the name words.txt, about as long as it may be ([13.18]) and longer.
fn words_files() -> Vec<Found> {
    let built_in = wording::text(&wording::built_in());
    let long = |kind: usize| {
        let mut word = [b'z', b'a' + kind as u8 % 26, b'a' + kind as u8 / 26].to_vec();
        word.resize(wording::most(kind), b'z');
        word
    };
    let longest = wording::text(&(0..WORDS.len()).map(long).collect());
    assert_eq!(longest.len(), wording::LONGEST);
    let german = std::fs::read("examples/german.words").unwrap();
    let mut files = vec![Absent, Link, Text(built_in.clone()), Text(longest.clone()), Text(german.clone()), Folder, Text(Vec::new())];
    let change = |from: &str, to: &str| {
        let text = String::from_utf8(german.clone()).unwrap();
        assert!(text.matches(from).count() == 1, "{from:?} stands once");
        Text(text.replace(from, to).bytes().collect())
    };
    let behind = |text: &[u8], more: &[u8]| Text([text, more].concat());
    // The last line left out, or with another end.
    let last = String::from_utf8(german.clone()).unwrap().lines().last().unwrap().to_string();
    for to in [String::new(), last.clone(), format!("{last}\r\n"), "plan,other\n".into(), format!("{last}\n\n"), format!("{last}\nplan,other\n")] {
        files.push(change(&format!("{last}\n"), &to));
    }
    // Each mistake in how the lines are written, and two own words alike.
    for (from, to) in [
        ("num,zahl\narr,reihe\n", "arr,reihe\nnum,zahl\n"),
        ("num,zahl", "num, zahl"),
        ("num,zahl", "num,zahl "),
        ("num,zahl", " num,zahl"),
        ("num,zahl", "num,Zahl"),
        ("num,zahl", "Num,zahl"),
        ("num,zahl", "number,zahl"),
        ("num,zahl", "num,zahl1"),
        ("num,zahl", "num,z\u{e4}hl"),
        ("num,zahl", "num,zahl,"),
        ("num,zahl", "num,"),
        ("num,zahl", "num"),
        ("num,zahl", "num;zahl"),
        ("num,zahl", "num,zahlwerte"),
        ("lit,fix", "lit,fest"),
        ("num,zahl", "num,plan"),
        ("rest,rest", "rest,plan"),
        ("num,zahl\n", "num,plan\n\n"),
    ] {
        files.push(change(from, to));
    }
    // As many bytes as there would be if each line had sixteen, and about as many.
    let sixteens = 16 * WORDS.len();
    let sizes = [longest.len() + 1, sixteens - 1, sixteens, sixteens + 1, 2 * sixteens, 4096, 70000];
    files.extend(sizes.map(|size| behind(&longest, &vec![b'a'; size - longest.len()])));
    files.extend([longest.len() + 1, sixteens, sixteens + 1].map(|size| behind(&longest, &vec![b'\n'; size - longest.len()])));
    // [16.1] One from before there were vectors.
    let lines = String::from_utf8(german.clone()).unwrap();
    let before: String = lines.split_inclusive('\n').take_while(|line| !line.starts_with("vec,")).collect();
    files.push(Text(before.into_bytes()));
    files.push(behind(&built_in, &built_in));
    files.push(behind(&german, &[0]));
    files
}

fn counts(of: &BTreeMap<u64, u64>) -> String {
    of.iter().map(|(n, count)| format!("{count} by {n}")).collect::<Vec<_>>().join(", ")
}

// Both programs beside words files.
fn words(args: &[String], folder: &Path) {
    let program = |name: &str| Path::new(name).canonicalize().unwrap();
    let (translator, runner) = (program(&args[1]), program(&args[2]));
    std::fs::create_dir_all(folder).unwrap();
    let mut worded = Worded { translator, runner, folder: folder.into(), files: 0, refused: BTreeMap::new() };
    worded.named();
    let bays = worded.german();
    std::fs::remove_dir_all(folder).unwrap();
    assert!([2, 16, 17].iter().all(|n| worded.refused.contains_key(n)), "{:?}", worded.refused);
    println!(
        "{} runs of both programs beside {} words files, some absent, folders or links to nothing, answered alike: refused {}; the German \
         garage has the loops and the {bays} amperes of the built-in words",
        worded.files,
        words_files().len(),
        counts(&worded.refused)
    );
}

fn main() {
    let args: Vec<String> = std::env::args().collect();
    let folder = std::env::temp_dir().join(format!("vazhdumir-files-{}", std::process::id()));
    std::fs::create_dir_all(&folder).unwrap();
    let program = Path::new(&args[2]).canonicalize().unwrap();
    let mut runner = Runner { program, folder: folder.clone(), files: 0, refused: [BTreeMap::new(), BTreeMap::new()] };
    runner.named();
    let lanes = runner.random(args[3].parse().unwrap());
    std::fs::remove_dir_all(&runner.folder).unwrap();
    let [loops, values] = &runner.refused;
    assert!([1, 2, 15].iter().all(|n| values.contains_key(n)), "{values:?}");
    assert!(loops.contains_key(&18), "{loops:?}");
    println!(
        "{} pairs of files, some absent, folders or links to nothing, answered alike by the runner and the second implementation: \
         loops refused {}; values refused {}; {lanes} of the random loops that are accepted have lanes",
        runner.files,
        counts(loops),
        counts(values)
    );
    let plans = long_plans();
    let mut refused = BTreeMap::new();
    for plan in &plans {
        let wanted = reference::reply(&["translate".into()], plan);
        same(output(Command::new(&args[1]), plan), &wanted, String::from_utf8_lossy(plan));
        if let Some(number) = wanted.strip_prefix("no,") {
            *refused.entry(number.split(',').next().unwrap().parse().unwrap()).or_default() += 1;
        }
    }
    println!(
        "{} plans of 2,817 to 70,000 bytes answered alike by the translator and the second implementation: refused {}",
        plans.len(),
        counts(&refused)
    );
    words(&args, &folder);
}
