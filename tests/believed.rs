// What a reader has to believe, computed. From the statements in the files named on the command line every definition is reached that they
// speak of, through the imports of crates/*/specs. A name of a file Promises.antt is a contract and not followed: it has to stand in the
// `ensures` of a public function, a contract for C in that of an exported one, and the demands are drawn from it. Prints the table of
// docs/PROOFS.md; `--names` prints every definition instead.
// Fails where an import is not found, a line is not understood, or a definition stands among laws, theorems or proofs.
use std::collections::{BTreeMap, BTreeSet, HashMap};
use std::path::{Path, PathBuf};
use std::{env, fs, process};

// ---- the text of a file

// a line with its indent, without its comment and the insides of its strings; empty ones are left out
#[derive(Clone)]
struct Line {
    number: usize,
    indent: usize,
    text: String,
}

fn lines_of(text: &str) -> Vec<Line> {
    let mut lines = Vec::new();
    for (at, whole) in text.lines().enumerate() {
        let (mut kept, mut quoted, mut escaped) = (String::new(), false, false);
        for c in whole.chars() {
            if quoted {
                (quoted, escaped) = (c != '"' || escaped, c == '\\' && !escaped);
                continue;
            }
            quoted = c == '"';
            kept.push(if quoted { ' ' } else { c });
            if kept.ends_with(" --") || kept == "--" {
                kept.truncate(kept.len() - 2);
                break;
            }
        }
        let indent = kept.len() - kept.trim_start().len();
        if !kept.trim().is_empty() || whole.trim_start().starts_with('"') {
            lines.push(Line { number: at + 1, indent, text: kept.trim().to_string() });
        }
    }
    lines
}

// the names in a text; a projection `.field` is none
fn names_in(text: &str) -> Vec<&str> {
    text.split(|c: char| c.is_whitespace() || "(){},;λ".contains(c))
        .map(|word| word.strip_suffix('.').unwrap_or(word))
        .filter(|word| !word.is_empty() && !word.starts_with('.'))
        .collect()
}

// ---- the items of a file

struct Item {
    source: usize,
    name: String,
    public: bool,
    // neither declared as a definition nor a type
    theorem: bool,
    // a data's constructors, a record's fields
    members: Vec<String>,
    // the headers of the modules around it
    around: Vec<Line>,
    statement: Vec<Line>,
    clauses: Vec<Line>,
}

// the parts of a name around the places for its operands, `◌`; a name without places is one part
fn parts_of(name: &str) -> Vec<&str> {
    name.split('◌').filter(|part| !part.is_empty()).collect()
}

impl Item {
    // a name with places for its operands is used by its other parts
    fn parts(&self) -> Vec<&str> {
        parts_of(&self.name)
    }
}

struct Import {
    number: usize,
    path: String,
    // the name there and the name here
    names: Vec<(String, String)>,
    alias: Option<String>,
}

struct Source {
    package: String,
    module: String,
    path: PathBuf,
    imports: Vec<Import>,
}

struct Parser {
    source: usize,
    path: PathBuf,
    imports: Vec<Import>,
    items: Vec<Item>,
    errors: Vec<String>,
}

// a line that is not deeper than the first begins a new group, unless it only closes what is open
fn groups(lines: &[Line]) -> Vec<&[Line]> {
    let begins = |line: &Line| line.indent <= lines[0].indent && !line.text.starts_with([')', '}']);
    let mut starts: Vec<usize> = (0..lines.len()).filter(|&at| begins(&lines[at])).collect();
    starts.push(lines.len());
    starts.windows(2).map(|ends| &lines[ends[0]..ends[1]]).collect()
}

// how many lines a header has that ends in `where`
fn header_lines(group: &[Line]) -> usize {
    group.iter().position(|line| line.text.ends_with("where")).map_or(group.len(), |at| at + 1)
}

// what stands before the colon, if these are names only
fn declared_names(words: &[&str]) -> Option<Vec<String>> {
    let colon = words.iter().position(|word| *word == ":")?;
    let plain = |word: &&str| !word.contains(|c: char| "(){}=".contains(c));
    (colon > 0 && words[..colon].iter().all(plain)).then(|| words[..colon].iter().map(|word| word.to_string()).collect())
}

impl Parser {
    fn block(&mut self, lines: &[Line], around: &[Line], definitions: bool) {
        for group in if lines.is_empty() { Vec::new() } else { groups(lines) } {
            self.group(group, around, definitions);
        }
    }

    fn group(&mut self, group: &[Line], around: &[Line], definitions: bool) {
        let mut words: Vec<&str> = group[0].text.split_whitespace().collect();
        let word = words[0];
        if word == "use" {
            return self.import(group);
        }
        if ["infix", "infixl", "infixr", "unfolding", "mod"].contains(&word) || group[0].text.starts_with("pub mod ") {
            return;
        }
        if word == "module" {
            let header = header_lines(group);
            return self.block(&group[header..], &[around, &group[..header]].concat(), definitions);
        }
        let (mut definition, mut public) = (definitions, false);
        while ["abbrev", "unfoldable", "pub"].contains(&words[0]) && words.len() > 1 {
            definition |= words[0] != "pub";
            public |= words[0] == "pub";
            words.remove(0);
        }
        if words == ["mutual"] {
            return self.block(&group[1..], &[around, &group[..1]].concat(), definition);
        }
        if words[0] == "data" || words[0] == "record" {
            return self.declaration(group, around, public, words[1]);
        }
        match declared_names(&words) {
            Some(names) => self.signature(group, around, definition, public, &names),
            None => self.clause(group),
        }
    }

    fn import(&mut self, group: &[Line]) {
        let joined: String = group.iter().map(|line| format!("{} ", line.text)).collect();
        let text = joined.trim().trim_start_matches("use ");
        let (path, rest) = text.split_once(".{").unwrap_or((text, ""));
        let (path, alias) = path.split_once(" as ").map_or((path, None), |(path, alias)| (path, Some(alias.to_string())));
        let names = rest.trim_end_matches('}').split(',').map(str::trim).filter(|name| !name.is_empty());
        let renamed = |name: &str| name.split_once(" as ").map_or((name.into(), name.into()), |(a, b)| (a.to_string(), b.to_string()));
        self.imports.push(Import { number: group[0].number, path: path.to_string(), names: names.map(renamed).collect(), alias });
    }

    fn declaration(&mut self, group: &[Line], around: &[Line], public: bool, name: &str) {
        let body = &group[header_lines(group)..];
        let mut members = Vec::new();
        for member in if body.is_empty() { Vec::new() } else { groups(body) } {
            let words: Vec<&str> = member[0].text.split_whitespace().filter(|word| *word != "pub").collect();
            match declared_names(&words) {
                Some(names) => members.extend(names),
                None => self.errors.push(format!("{}:{}: not understood", self.path.display(), member[0].number)),
            }
        }
        let (around, statement) = (around.to_vec(), group.to_vec());
        let item = Item { source: self.source, name: name.into(), public, theorem: false, members, around, statement, clauses: Vec::new() };
        self.items.push(item);
    }

    fn signature(&mut self, group: &[Line], around: &[Line], definition: bool, public: bool, names: &[String]) {
        let text: String = group.iter().map(|line| format!("{} ", line.text)).collect();
        let words: Vec<&str> = text.split_whitespace().collect();
        // what gives a type is a definition, however it is declared
        let theorem = !definition && words[words.len() - 2] != "Type";
        for name in names {
            self.items.push(Item {
                source: self.source,
                name: name.clone(),
                public,
                theorem,
                members: Vec::new(),
                around: around.to_vec(),
                statement: group.to_vec(),
                clauses: Vec::new(),
            });
        }
    }

    fn clause(&mut self, group: &[Line]) {
        let text: String = group.iter().map(|line| format!("{} ", line.text)).collect();
        let names = names_in(text.split(" = ").next().unwrap_or(""));
        match self.items.iter_mut().rev().find(|item| item.parts().iter().all(|part| names.contains(part))) {
            Some(item) if item.members.is_empty() => item.clauses.extend_from_slice(group),
            _ => self.errors.push(format!("{}:{}: not understood", self.path.display(), group[0].number)),
        }
    }
}

// ---- names and what they stand for

#[derive(Clone, PartialEq, Eq, PartialOrd, Ord)]
enum Target {
    Item(usize),
    // an enum or a struct of the code: its crate and its name
    Code(String, String),
    // something under proofs/
    Proof(String),
}

// what a path leads to
enum Module {
    Source(usize),
    Member(usize),
    Code(String, String, String),
    Proof(String),
    Library,
}

struct World {
    packages: Vec<String>,
    sources: Vec<Source>,
    items: Vec<Item>,
    errors: Vec<String>,
}

fn files_under(folder: &Path, extension: &str) -> Vec<PathBuf> {
    let mut found = Vec::new();
    let mut entries: Vec<PathBuf> = fs::read_dir(folder).into_iter().flatten().flatten().map(|entry| entry.path()).collect();
    entries.sort();
    for path in entries {
        if path.is_dir() {
            found.extend(files_under(&path, extension));
        } else if path.extension().is_some_and(|found| found == extension) {
            found.push(path);
        }
    }
    found
}

fn text_of(path: &Path) -> String {
    fs::read_to_string(path).unwrap_or_else(|error| {
        eprintln!("{}: {error}", path.display());
        process::exit(1);
    })
}

impl World {
    fn read(packages: &[String]) -> World {
        let mut world = World { packages: packages.to_vec(), sources: Vec::new(), items: Vec::new(), errors: Vec::new() };
        for package in packages {
            let specs = PathBuf::from(format!("crates/{package}/specs"));
            for path in files_under(&specs, "antt") {
                let inside = path.strip_prefix(&specs).unwrap().with_extension("");
                let module = inside.to_string_lossy().replace('/', ".");
                let source = world.sources.len();
                let mut parser =
                    Parser { source, path: path.clone(), imports: Vec::new(), items: Vec::new(), errors: Vec::new() };
                parser.block(&lines_of(&text_of(&path)), &[], false);
                world.sources.push(Source { package: package.clone(), module, path, imports: parser.imports });
                world.items.extend(parser.items);
                world.errors.extend(parser.errors);
            }
        }
        world
    }

    fn items_of(&self, source: usize) -> impl Iterator<Item = (usize, &Item)> {
        self.items.iter().enumerate().filter(move |(_, item)| item.source == source)
    }

    // `Rattle.NAME.specs.A.B`, in the crate itself too; the last part may be a data's or a record's name
    fn module(&self, path: &str) -> Option<Module> {
        let Some(path) = path.strip_prefix("Rattle.") else { return Some(Module::Library) };
        let (package, tail) = path.split_once('.')?;
        if !self.packages.iter().any(|own| own == package) {
            return Some(Module::Library);
        }
        if let Some(declared) = tail.strip_prefix("specs.declared.") {
            let declared = declared.trim_end_matches(".TheVariants");
            let (file, name) = declared.rsplit_once('.').unwrap_or(("lib", declared));
            return Some(Module::Code(package.into(), file.replace('.', "/"), name.into()));
        }
        if let Some(module) = tail.strip_prefix("proofs.") {
            let path = format!("crates/{package}/proofs/{}.antt", module.replace('.', "/"));
            return Path::new(&path).is_file().then_some(Module::Proof(path));
        }
        let module = tail.strip_prefix("specs.")?;
        let find = |module: &str| self.sources.iter().position(|source| source.package == package && source.module == module);
        if let Some(source) = find(module) {
            return Some(Module::Source(source));
        }
        let (outer, name) = module.rsplit_once('.')?;
        let source = find(outer)?;
        let found = self.items_of(source).find(|(_, item)| item.name == name)?;
        Some(Module::Member(found.0))
    }

    // the items of a file that have this name, or else those with such a constructor or field
    fn named(&self, source: usize, name: &str) -> Vec<Target> {
        let own: Vec<Target> = self.items_of(source).filter(|(_, item)| item.name == name).map(|(at, _)| Target::Item(at)).collect();
        if !own.is_empty() {
            return own;
        }
        let member = |item: &Item| item.members.iter().any(|member| member == name);
        self.items_of(source).filter(|(_, item)| member(item)).map(|(at, _)| Target::Item(at)).collect()
    }

    // what a name of a module stands for; nothing if it is not found
    fn targets(&self, module: &Module, name: &str) -> Vec<Target> {
        match module {
            Module::Source(source) => self.named(*source, name),
            Module::Member(item) => {
                let found = self.items[*item].members.iter().any(|member| member == name);
                if found { vec![Target::Item(*item)] } else { Vec::new() }
            }
            Module::Code(package, file, of) => {
                let text = fs::read_to_string(format!("crates/{package}/src/{file}.rt")).unwrap_or_default();
                let words: Vec<&str> = text.split(|c: char| !c.is_alphanumeric() && c != '_').collect();
                let there = words.windows(2).any(|two| (two[0] == "enum" || two[0] == "struct") && two[1] == of);
                if there && words.contains(&name) { vec![Target::Code(package.clone(), of.clone())] } else { Vec::new() }
            }
            Module::Proof(path) => vec![Target::Proof(format!("{path}: {name}"))],
            Module::Library => Vec::new(),
        }
    }
}

// The names that a file can speak of: its own items and their constructors, and its imports.
struct Scope {
    names: HashMap<String, Vec<Target>>,
    aliases: HashMap<String, Module>,
}

impl Scope {
    fn of(world: &World, source: usize, errors: &mut Vec<String>) -> Scope {
        let mut scope = Scope { names: HashMap::new(), aliases: HashMap::new() };
        for (at, item) in world.items_of(source) {
            let parts = item.parts().into_iter().map(String::from);
            for name in parts.chain(item.members.clone()) {
                scope.names.entry(name).or_default().push(Target::Item(at));
            }
        }
        for import in &world.sources[source].imports {
            let place = format!("{}:{}", world.sources[source].path.display(), import.number);
            let Some(module) = world.module(&import.path) else {
                errors.push(format!("{place}: {} is not found", import.path));
                continue;
            };
            for (name, here) in &import.names {
                let targets = world.targets(&module, name);
                if targets.is_empty() && !matches!(module, Module::Library) {
                    errors.push(format!("{place}: {name} is not found in {}", import.path));
                }
                for part in parts_of(here) {
                    scope.names.entry(part.into()).or_default().extend(targets.clone());
                }
            }
            if let Some(alias) = &import.alias {
                scope.aliases.insert(alias.clone(), module);
            }
        }
        scope
    }

    fn targets(&self, world: &World, name: &str) -> Vec<Target> {
        let (head, rest) = name.split_once('.').unwrap_or((name, ""));
        let mut found = self.names.get(head).cloned().unwrap_or_default();
        if let Some(module) = self.aliases.get(head) {
            found.extend(world.targets(module, rest.split('.').next().unwrap_or("")));
        }
        if let Some((path, last)) = name.rsplit_once('.').filter(|_| name.starts_with("Rattle.")) {
            found.extend(world.module(path).map_or(Vec::new(), |module| world.targets(&module, last)));
        }
        found
    }
}

// ---- contracts

// the names in the `ensures` of public functions without `requires`: of all of them, and of those that are exported to C
fn promised_names(packages: &[String]) -> (BTreeSet<String>, BTreeSet<String>) {
    let (mut names, mut exported) = (BTreeSet::new(), BTreeSet::new());
    for path in packages.iter().flat_map(|package| files_under(Path::new(&format!("crates/{package}/src")), "rt")) {
        let text = text_of(&path);
        let code: String = text.lines().map(|line| line.split("//").next().unwrap_or("").to_string() + "\n").collect();
        for part in code.split("\npub ").skip(1) {
            // up to the body, whose brace stands alone where there is a contract
            let head = part.split("\n{").next().unwrap_or("").split("\n}").next().unwrap_or("");
            if head.split_whitespace().any(|word| word == "fn") && !head.contains("requires") {
                let promises = head.split_once("ensures").map_or("", |(_, promises)| promises);
                let found = names_in(promises).into_iter().map(String::from);
                if head.starts_with("extern \"C\" fn ") {
                    exported.extend(found.clone());
                }
                names.extend(found);
            }
        }
    }
    (names, exported)
}

// ---- what is reached

struct Reached {
    // and whether whole: of a theorem in the files named only the statement, unless another statement names it
    items: BTreeMap<usize, bool>,
    code: BTreeSet<(String, String)>,
    contracts: BTreeSet<usize>,
    proofs: BTreeSet<String>,
}

impl Reached {
    // A variable that is called as an imported name is taken for it: too much may be reached, never too little.
    fn from(world: &World, scopes: &[Scope], roots: Vec<(usize, bool)>) -> Reached {
        let mut reached = Reached { items: BTreeMap::new(), code: BTreeSet::new(), contracts: BTreeSet::new(), proofs: BTreeSet::new() };
        let mut open = roots;
        while let Some((at, whole)) = open.pop() {
            let item = &world.items[at];
            if world.sources[item.source].path.ends_with("Promises.antt") {
                reached.contracts.insert(at);
                continue;
            }
            if reached.items.get(&at).is_some_and(|before| *before >= whole) {
                continue;
            }
            reached.items.insert(at, whole);
            for name in believed_lines(item, whole).flat_map(|line| names_in(&line.text)) {
                for target in scopes[item.source].targets(world, name) {
                    match target {
                        Target::Item(next) if next == at => (),
                        Target::Item(next) => open.push((next, true)),
                        Target::Code(package, of) => drop(reached.code.insert((package, of))),
                        Target::Proof(place) => drop(reached.proofs.insert(place)),
                    }
                }
            }
        }
        reached
    }
}

fn believed_lines(item: &Item, whole: bool) -> impl Iterator<Item = &Line> {
    let clauses = if whole { &item.clauses[..] } else { &[] };
    item.around.iter().chain(&item.statement).chain(clauses)
}

// ---- what is printed

fn print_table(world: &World, packages: &[String], reached: &Reached) {
    println!("| crate | files | definitions | lines |\n|---|---|---|---|");
    let (mut all, mut all_lines) = (0, 0);
    for package in packages {
        let (mut files, mut lines, mut count) = (Vec::new(), BTreeSet::new(), 0);
        for (&at, &whole) in &reached.items {
            let source = &world.sources[world.items[at].source];
            if source.package == *package {
                if !files.contains(&source.module) {
                    files.push(source.module.clone());
                }
                lines.extend(believed_lines(&world.items[at], whole).map(|line| (&source.path, line.number)));
                count += 1;
            }
        }
        if count > 0 {
            println!("| `{package}` | {} | {count} | {} |", files.join(", "), lines.len());
        }
        (all, all_lines) = (all + count, all_lines + lines.len());
    }
    println!("| **all** | | {all} | {all_lines} |");
}

// names by crate, in the order of the crates
fn print_lists(title: &str, packages: &[String], names: &[(String, String)]) {
    let mut by_package: BTreeMap<usize, Vec<&str>> = BTreeMap::new();
    for (package, name) in names {
        let at = packages.iter().position(|other| other == package).unwrap_or(packages.len());
        by_package.entry(at).or_default().push(name);
    }
    let list = |(at, names): (usize, Vec<&str>)| format!("`{}` {}", packages[at], names.join(", "));
    let lists: Vec<String> = by_package.into_iter().map(list).collect();
    println!("\n{title}: {}.", if lists.is_empty() { "none".into() } else { lists.join("; ") });
}

fn print_names(world: &World, reached: &Reached) {
    for &at in reached.items.keys() {
        let source = &world.sources[world.items[at].source];
        println!("{}/{}: {}", source.package, source.module, world.items[at].name);
    }
    for (package, name) in &reached.code {
        println!("{package}/src: {name}");
    }
}

// what is reached and must not be: definitions among laws, theorems and proofs, and contracts that no public function has
fn misplaced(world: &World, packages: &[String], reached: &Reached) -> Vec<String> {
    let mut errors = Vec::new();
    for &at in reached.items.keys() {
        let source = &world.sources[world.items[at].source];
        if source.module.contains("Laws") || source.module.contains("Theorems") {
            errors.push(format!("{}: {} is to be believed, but stands among laws", source.path.display(), world.items[at].name));
        }
    }
    errors.extend(reached.proofs.iter().map(|place| format!("{place} is to be believed, but stands among proofs")));
    let (promised, exported) = promised_names(packages);
    for item in world.items.iter().filter(|item| world.sources[item.source].path.ends_with("Promises.antt")) {
        let source = &world.sources[item.source];
        let (path, name) = (source.path.display(), &item.name);
        if !promised.contains(name) {
            errors.push(format!("{path}: {name} stands in the `ensures` of no public function without `requires`"));
        }
        if source.package == "vazhdumir" && !exported.contains(name) {
            errors.push(format!("{path}: {name} stands in the `ensures` of no exported function"));
        }
    }
    errors
}

fn main() {
    let (options, files): (Vec<String>, Vec<String>) = env::args().skip(1).partition(|word| word.starts_with("--"));
    let crates = text_of(Path::new("crates.txt"));
    let crates = crates.lines().filter(|line| !line.starts_with('#'));
    let packages: Vec<String> = crates.filter_map(|line| Some(line.split_once(':')?.0.split_whitespace().next()?.to_string())).collect();
    let world = World::read(&packages);
    let mut errors = world.errors.clone();
    let scopes: Vec<Scope> = (0..world.sources.len()).map(|source| Scope::of(&world, source, &mut errors)).collect();
    let mut roots = Vec::new();
    for file in &files {
        let source = world.sources.iter().position(|source| source.path == Path::new(file));
        let stated = world.items_of(source.unwrap_or(usize::MAX)).filter(|(_, item)| item.public || !item.theorem);
        roots.extend(stated.map(|(at, item)| (at, !item.theorem)));
        if source.is_none() {
            errors.push(format!("{file} is not found"));
        }
    }
    let reached = Reached::from(&world, &scopes, roots);
    if options.contains(&"--names".to_string()) {
        print_names(&world, &reached);
    } else {
        print_table(&world, &packages, &reached);
        print_lists("Of the code's own enums and structs, by name", &packages, &reached.code.iter().cloned().collect::<Vec<_>>());
        let package = |at: &usize| (world.sources[world.items[*at].source].package.clone(), world.items[*at].name.clone());
        let contracts: Vec<(String, String)> = reached.contracts.iter().map(package).collect();
        print_lists("Contracts, not believed: the machine draws the demands from them", &packages, &contracts);
    }
    errors.extend(misplaced(&world, &packages, &reached));
    for error in &errors {
        eprintln!("{error}");
    }
    process::exit(i32::from(!errors.is_empty()));
}
