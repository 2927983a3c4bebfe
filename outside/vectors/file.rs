//! A file of vectors: written one by one, and read back.
use crate::call::{run, Call, BASE};
use crate::pack::{pack, Unpack};

pub struct File {
    pub name: &'static str,
    pub bytes: Vec<u8>,
    pub count: u64,
    base: Vec<u8>,
    answers: Vec<u64>,
}

impl File {
    pub fn new(name: &'static str) -> File {
        File { name, bytes: Vec::new(), count: 0, base: Vec::new(), answers: Vec::new() }
    }

    /// The bytes that later vectors of the file may take parts of.
    pub fn base(&mut self, bytes: &[u8]) {
        self.base.clear();
        self.add(Call { call: BASE, numbers: Vec::new(), bytes: vec![bytes.to_vec()] });
        self.base = bytes.to_vec();
    }

    /// A vector: the call, and what the baseline makes of it.
    pub fn add(&mut self, call: Call) -> (u64, Vec<u8>) {
        let (answer, effect) = run(&call);
        let mut vector = vec![call.call, call.numbers.len() as u8];
        call.numbers.iter().for_each(|n| vector.extend_from_slice(&n.to_le_bytes()));
        vector.push(call.bytes.len() as u8);
        call.bytes.iter().for_each(|bytes| vector.extend(pack(bytes, &self.base, &[])));
        vector.extend_from_slice(&answer.to_le_bytes());
        let entry = call.bytes.first().map_or(&[][..], |bytes| bytes);
        vector.extend(pack(&effect, &self.base, entry));
        assert!(vector.len() < 65_536, "too long for a number of 2 bytes");
        self.bytes.extend_from_slice(&(vector.len() as u16).to_le_bytes());
        self.bytes.extend(vector);
        self.count += 1;
        self.answers.push(answer);
        (answer, effect)
    }

    pub fn call(&mut self, call: u8, numbers: &[u64], bytes: &[&[u8]]) -> u64 {
        let bytes = bytes.iter().map(|b| b.to_vec()).collect();
        self.add(Call { call, numbers: numbers.to_vec(), bytes }).0
    }
}

/// How often each number is answered, and at how many places.
pub fn answers(files: &[File]) -> String {
    let mut all: Vec<u64> = files.iter().flat_map(|file| file.answers.iter().copied()).collect();
    all.sort_unstable_by_key(|a| (a % 256, a / 256));
    let mut text = format!("{} vectors; number: times, places", all.len());
    for code in 0..62 {
        let mut places: Vec<u64> = all.iter().filter(|&a| a % 256 == code).map(|a| a / 256).collect();
        let times = places.len();
        places.dedup();
        if times > 0 {
            text += &format!("\n{code}: {times}, {}", places.len());
        }
    }
    text
}

/// Runs a file over the baseline: how many vectors there are, or the number of the first that does not agree.
pub fn disagrees(bytes: &[u8]) -> Result<u64, u64> {
    let mut file = Unpack { rest: bytes };
    let mut base = Vec::new();
    let mut number = 0;
    while !file.rest.is_empty() {
        let size = file.number(2) as usize;
        let mut vector = Unpack { rest: file.take(size) };
        let call = vector.number(1) as u8;
        let numbers = (0..vector.number(1)).map(|_| vector.number(8)).collect();
        let strings: Vec<Vec<u8>> = (0..vector.number(1)).map(|_| vector.bytes(&base, &[])).collect();
        let answer = vector.number(8);
        let effect = vector.bytes(&base, strings.first().map_or(&[][..], |bytes| bytes));
        if !vector.rest.is_empty() || run(&Call { call, numbers, bytes: strings.clone() }) != (answer, effect) {
            return Err(number);
        }
        if call == BASE {
            base = strings.concat();
        }
        number += 1;
    }
    Ok(number)
}
