//! Streams like those that a template makes: imports, types, one memory, then
//! functions with named parameters and locals, calls, blocks, loads and stores,
//! with texts for the memory between them. The same ones for the same seed.

/// Xorshift: no crate is needed, and the same everywhere.
pub struct Chance(u64);

impl Chance {
    pub fn new(seed: u64) -> Self {
        Chance(seed.wrapping_mul(0x9E37_79B9_7F4A_7C15) | 1)
    }

    pub fn below(&mut self, end: usize) -> usize {
        self.0 ^= self.0 << 13;
        self.0 ^= self.0 >> 7;
        self.0 ^= self.0 << 17;
        (self.0 >> 33) as usize % end
    }

    fn pick<'a, T>(&mut self, from: &'a [T]) -> &'a T {
        &from[self.below(from.len())]
    }
}

const WORDS: [&str; 24] = [
    "write", "escape", "row", "title", "buf", "len", "pos", "out", "item", "next", "list", "attr", "html", "put",
    "begin", "end", "count", "text", "src", "dst", "page", "node", "flag", "tmp",
];
const TEXT: &[u8] = b"<li class=\"row\"><a href=\"/page/{{id}}\">{{title}}</a></li>\n<p>{{text}}</p>\n";

/// What the bodies are like: with blocks, or long and without one.
#[derive(Clone, Copy, PartialEq)]
pub enum Bodies {
    Blocks,
    Long,
}

struct Template {
    out: Vec<u8>,
    chance: Chance,
    functions: Vec<String>,
    bodies: Bodies,
}

/// A stream of exactly `size` bytes without a refusal: functions and texts as
/// long as there is room, and a last text that fills it.
pub fn stream(size: usize, seed: u64, bodies: Bodies) -> Vec<u8> {
    let mut template = Template { out: Vec::new(), chance: Chance::new(seed), functions: Vec::new(), bodies };
    template.head();
    let mut misses = 0;
    while misses < 8 {
        let (length, functions) = (template.out.len(), template.functions.len());
        template.function();
        template.text();
        if template.out.len() + LAST > size {
            template.out.truncate(length);
            template.functions.truncate(functions);
            misses += 1;
        }
    }
    let left = size - template.out.len();
    template.last_text(left);
    template.out
}

/// What the last text takes at least.
const LAST: usize = 6;

impl Template {
    fn number(&mut self, mut value: usize) {
        while value >= 0x80 {
            self.out.push(value as u8 | 0x80);
            value >>= 7;
        }
        self.out.push(value as u8);
    }

    fn name(&mut self, name: &str) {
        self.number(name.len());
        self.out.extend_from_slice(name.as_bytes());
    }

    fn by_name(&mut self, name: &str) {
        self.out.push(2);
        self.name(name);
    }

    fn code(&mut self, opcode: u8, name: &str) {
        self.out.push(opcode);
        self.by_name(name);
    }

    fn word(&mut self) -> String {
        self.chance.pick(&WORDS).to_string()
    }

    fn two_words(&mut self) -> String {
        format!("{}_{}", self.word(), self.word())
    }

    fn constant(&mut self) {
        self.out.push(0x41);
        let value = *self.chance.pick(&[0, 1, 4, 32, 60, 1024, 65_535, 0xFFFF_FFFF]);
        self.number(value);
    }

    fn head(&mut self) {
        self.out.push(1);
        self.name("emit");
        self.out.extend_from_slice(&[2, 0x7F, 0x7F, 1, 0x7F]);
        for name in ["log", "flush"] {
            self.out.push(2);
            self.name("env");
            self.name(name);
            self.out.push(0);
            self.name(name);
            self.by_name("emit");
            self.out.extend_from_slice(&[0, 0]);
            self.functions.push(name.to_string());
        }
        self.out.push(5);
        self.name("memory");
        self.out.push(1);
        self.name("memory");
        self.out.extend_from_slice(&[0, 1, 1, 16]);
    }

    fn function(&mut self) {
        let name = format!("{}{}", self.two_words(), self.functions.len());
        self.out.push(3);
        self.name(&name);
        self.out.push(1);
        self.name(&name);
        self.out.push(0);
        // Some with the declared type, some with their own; both have names.
        if self.chance.below(2) == 0 {
            self.by_name("emit");
        } else {
            self.out.push(0);
        }
        let mut names = vec!["at".to_string(), "size".to_string()];
        self.out.push(2);
        for name in &names {
            self.number(name.len());
            self.out.extend_from_slice(name.as_bytes());
            self.out.push(0x7F);
        }
        self.out.extend_from_slice(&[1, 0x7F]);
        let count = 1 + self.chance.below(4);
        self.number(count);
        for number in 0..count {
            let local = format!("{}{}", self.word(), number);
            self.name(&local);
            self.out.push(*self.chance.pick(&[0x7F, 0x7F, 0x7E]));
            names.push(local);
        }
        self.functions.push(name);
        self.body(&names);
    }

    fn body(&mut self, names: &[String]) {
        let mut labels: Vec<String> = Vec::new();
        let length = match self.bodies {
            Bodies::Blocks => 10 + self.chance.below(18),
            Bodies::Long => 150,
        };
        for _ in 0..length {
            match self.chance.below(16) {
                0 | 1 if self.bodies == Bodies::Blocks => {
                    let label = if self.chance.below(3) == 0 { String::new() } else { self.word() };
                    self.out.push(*self.chance.pick(&[2, 3, 4]));
                    self.name(&label);
                    let use_ = *self.chance.pick(&[&[0u8, 0, 0] as &[u8], &[0, 0, 1, 0x7F]]);
                    self.out.extend_from_slice(use_);
                    labels.push(label);
                }
                2 | 3 if !labels.is_empty() => {
                    labels.pop();
                    self.out.extend_from_slice(&[0x0B, 0]);
                }
                4 => match labels.iter().rev().find(|label| !label.is_empty()).cloned() {
                    Some(label) => self.code(0x0D, &label),
                    None => self.out.push(0x1A),
                },
                5 | 6 => {
                    let callee = self.chance.pick(&self.functions).clone();
                    self.code(0x10, &callee);
                }
                7 | 8 => self.constant(),
                9 => {
                    let opcode = *self.chance.pick(&[0x28, 0x2D, 0x36, 0x3A]);
                    let offset = self.chance.below(300);
                    self.out.extend_from_slice(&[opcode, 0]);
                    self.number(offset);
                    self.out.push(0);
                }
                10 => self.out.push(*self.chance.pick(&[0x45, 0x46, 0x6A, 0x6B, 0x71, 0x1A])),
                _ => {
                    let name = self.chance.pick(names).clone();
                    let opcode = *self.chance.pick(&[0x20, 0x20, 0x21, 0x22]);
                    self.code(opcode, &name);
                }
            }
        }
        for _ in labels {
            self.out.extend_from_slice(&[0x0B, 0]);
        }
        self.out.push(0xFF);
    }

    fn text(&mut self) {
        let length = 30 + self.chance.below(130);
        self.out.extend_from_slice(&[0x0A, 0, 1, 0, 0]);
        let place = self.chance.below(65_536);
        self.number(place);
        self.letters(length);
    }

    /// A text that takes so many bytes with its head. Where no length in its
    /// shortest form makes the size come out, a name of one letter does.
    fn last_text(&mut self, size: usize) {
        let start = self.out.len();
        for (name, groups) in [("", 1), ("", 2), ("", 3), ("t", 1), ("t", 2)] {
            self.out.push(0x0A);
            self.name(name);
            self.out.push(0);
            let letters = (start + size).saturating_sub(self.out.len() + groups);
            self.number(letters);
            self.out.extend(TEXT.iter().cycle().take(letters));
            if self.out.len() == start + size {
                return;
            }
            self.out.truncate(start);
        }
        unreachable!("a text of {size} bytes");
    }

    fn letters(&mut self, length: usize) {
        self.number(length);
        let from = self.chance.below(TEXT.len());
        self.out.extend(TEXT.iter().cycle().skip(from).take(length));
    }
}
