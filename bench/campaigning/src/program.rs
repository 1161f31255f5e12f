//! Random programs and the words that make them.

#[derive(Clone, Copy)]
pub enum Op {
    St(usize, u32),
    Ld(usize),
    Fence,
    Swap(usize, u32),
    Add(usize, u32),
}

/// Xoshiro256++ by Blackman and Vigna, seeded by SplitMix64.
pub struct Words([u64; 4]);

impl Words {
    pub fn seeded(mut seed: u64) -> Words {
        let mut state = [0; 4];
        for word in &mut state {
            seed = seed.wrapping_add(0x9e3779b97f4a7c15);
            let mut z = seed;
            z = (z ^ (z >> 30)).wrapping_mul(0xbf58476d1ce4e5b9);
            z = (z ^ (z >> 27)).wrapping_mul(0x94d049bb133111eb);
            *word = z ^ (z >> 31);
        }
        Words(state)
    }

    pub fn next(&mut self) -> u64 {
        let s = &mut self.0;
        let word = s[0].wrapping_add(s[3]).rotate_left(23).wrapping_add(s[0]);
        let t = s[1] << 17;
        s[2] ^= s[0];
        s[3] ^= s[1];
        s[1] ^= s[2];
        s[0] ^= s[3];
        s[2] ^= t;
        s[3] = s[3].rotate_left(45);
        word
    }
}

/// The operations of all cores, one core after the other.
pub struct Program {
    pub ops: Vec<Op>,
    /// The first event of each core, and the number of events.
    pub first: Vec<usize>,
    /// The numbers in the addresses' names, in order of first use.
    pub names: Vec<usize>,
}

impl Program {
    pub fn new() -> Program {
        Program { ops: Vec::new(), first: Vec::new(), names: Vec::new() }
    }

    pub fn cores(&self) -> usize {
        self.first.len() - 1
    }

    fn address(&mut self, name: usize) -> usize {
        if let Some(at) = self.names.iter().position(|it| *it == name) {
            return at;
        }
        self.names.push(name);
        self.names.len() - 1
    }

    /// The random program of these sizes.
    pub fn draw(&mut self, cores: usize, ops: usize, addresses: usize, words: &mut Words) {
        self.ops.clear();
        self.names.clear();
        self.first.clear();
        self.first.extend((0..=cores).map(|c| c * ops));
        for e in 0..cores * ops {
            let w = words.next();
            let name = (w / 16 % addresses as u64) as usize;
            let value = e as u32 + 1;
            let op = match w % 8 {
                0..=2 => Op::Ld(self.address(name)),
                3..=5 => Op::St(self.address(name), value),
                6 => Op::Fence,
                _ if w / 8 % 2 == 0 => Op::Swap(self.address(name), value),
                _ => Op::Add(self.address(name), value),
            };
            self.ops.push(op);
        }
    }

    /// The program of a litmus text, whose lines are lawful.
    pub fn parse(text: &str) -> Program {
        let (mut program, mut names) = (Program::new(), Vec::new());
        for line in text.lines() {
            let words: Vec<&str> = line.split(' ').collect();
            if words[0] == "core" {
                program.first.push(program.ops.len());
                continue;
            }
            let address = words.get(1).map_or(0, |it| {
                names.iter().position(|name| name == it).unwrap_or_else(|| {
                    names.push(it.to_string());
                    names.len() - 1
                })
            });
            let value = words.get(2).map_or(0, |it| it.parse().expect("a value"));
            program.ops.push(match words[0] {
                "st" => Op::St(address, value),
                "ld" => Op::Ld(address),
                "swap" => Op::Swap(address, value),
                "add" => Op::Add(address, value),
                _ => Op::Fence,
            });
        }
        program.first.push(program.ops.len());
        program.names = (0..names.len()).collect();
        program
    }

    pub fn text(&self) -> String {
        let mut text = String::new();
        for c in 0..self.cores() {
            text += "core\n";
            for op in &self.ops[self.first[c]..self.first[c + 1]] {
                text += &match *op {
                    Op::St(a, v) => format!("st a{} {v}\n", self.names[a]),
                    Op::Ld(a) => format!("ld a{}\n", self.names[a]),
                    Op::Fence => "fence\n".into(),
                    Op::Swap(a, v) => format!("swap a{} {v}\n", self.names[a]),
                    Op::Add(a, v) => format!("add a{} {v}\n", self.names[a]),
                };
            }
        }
        text
    }
}
