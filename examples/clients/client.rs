// client QUESTIONS ANSWERS: asks the library what crates/crosscheck is asked, turns each answer back, and tries what each refusal of
// the header is for.
use std::process::ExitCode;
use std::{env, fs};

#[repr(C)]
#[derive(PartialEq, Debug)]
struct Answer {
    status: u64,
    at: u64,
    place: u64,
}

type Coder = unsafe extern "C" fn(*const u8, usize, *const u8, usize, *mut u64, usize) -> Answer;

unsafe extern "C" {
    fn waderdesk_code(draft: *const u8, draft_length: usize, key: *const u8, key_length: usize, numbers: *mut u64, count: usize) -> Answer;
    fn waderdesk_back(draft: *const u8, draft_length: usize, key: *const u8, key_length: usize, numbers: *mut u64, count: usize) -> Answer;
    fn waderdesk_read_draft(draft: *const u8, draft_length: usize) -> Answer;
}

#[derive(Clone)]
struct Cipher {
    draft: Vec<u8>,
    key: Vec<u8>,
}

impl Cipher {
    fn call(&self, coder: Coder, numbers: &mut [u64]) -> Answer {
        let Cipher { draft, key } = self;
        unsafe { coder(draft.as_ptr(), draft.len(), key.as_ptr(), key.len(), numbers.as_mut_ptr(), numbers.len()) }
    }
}

fn read(draft: &[u8]) -> Answer {
    unsafe { waderdesk_read_draft(draft.as_ptr(), draft.len()) }
}

fn bytes(hex: &str) -> Vec<u8> {
    (0..hex.len() / 2).map(|i| u8::from_str_radix(&hex[2 * i..2 * i + 2], 16).unwrap()).collect()
}

const DONE: Answer = Answer { status: 0, at: 0, place: 0 };

fn refusal(status: u64, at: u64) -> Answer {
    Answer { status, at, place: 0 }
}

// Damage to the last draft of the questions, of width 24: another byte and length, and the status, offset and list place of the fault.
// W stands at 0, P at 2, A at 3, the orders at 12, 77, 142 and 207, and Z at 272.
const DAMAGES: [(usize, u8, usize, u64, u64, u64); 10] = [
    (1, 24, 1, 1, 0, 0),
    (1, 24, 100, 1, 77, 0),
    (2, b'X', 273, 2, 2, 0),
    (2, b'W', 273, 3, 2, 0),
    (2, b'B', 273, 4, 2, 0),
    (1, 23, 273, 5, 0, 0),
    (7, 1, 273, 6, 3, 0),
    (148, 24, 273, 7, 142, 5),
    (207, b'Z', 208, 8, 207, 0),
    (273, 0, 274, 9, 273, 0),
];

#[derive(Default)]
struct Checks {
    asked: usize,
    failures: usize,
}

impl Checks {
    fn check(&mut self, what: &str, good: bool) {
        if !good {
            self.failures += 1;
            println!("client.rs: failed: {what}");
        }
    }

    fn ask(&mut self, cipher: &Cipher, question: &str, number: u64, expected: u64) {
        let (there, again): (Coder, Coder) =
            if question == "code" { (waderdesk_code, waderdesk_back) } else { (waderdesk_back, waderdesk_code) };
        let mut numbers = [number];
        self.check("an answer", cipher.call(there, &mut numbers) == DONE && numbers == [expected]);
        self.check("an answer turned back", cipher.call(again, &mut numbers) == DONE && numbers == [number]);
        self.asked += 1;
    }

    // Both calls refuse, and write nothing.
    fn refused(&mut self, what: &str, cipher: &Cipher, answer: Answer) {
        let mut numbers = [1, u64::MAX];
        for call in [waderdesk_code as Coder, waderdesk_back] {
            self.check(what, cipher.call(call, &mut numbers) == answer && numbers == [1, u64::MAX]);
        }
    }

    // The key of CPA at width 33 has 326 bits, so two bits of its last byte are spare.
    fn key_refused(&mut self, cipher: &mut Cipher) {
        cipher.key[40] |= 0x80;
        self.refused("a spare bit of the key", cipher, refusal(12, 0));
        cipher.key.truncate(40);
        self.refused("a short key", cipher, refusal(11, 0));
    }

    fn damaged(&mut self, cipher: &mut Cipher) {
        let whole = cipher.draft.clone();
        for (offset, byte, length, status, at, place) in DAMAGES {
            cipher.draft.push(0);
            cipher.draft[offset] = byte;
            cipher.draft.truncate(length);
            let fault = Answer { status, at, place };
            self.check("a spoilt draft read", read(&cipher.draft) == fault);
            self.refused("a spoilt draft", cipher, fault);
            cipher.draft.clone_from(&whole);
        }
    }
}

fn main() -> ExitCode {
    let files: Vec<String> = env::args().skip(1).map(|path| fs::read_to_string(path).unwrap()).collect();
    let mut answers = files[1].lines();
    let mut cipher = Cipher { draft: vec![], key: vec![] };
    let mut spare = None;
    let mut checks = Checks::default();
    for line in files[0].lines() {
        let words: Vec<&str> = line.split(' ').collect();
        if words[0] == "cipher" {
            cipher = Cipher { draft: bytes(words[1]), key: bytes(words[2]) };
            checks.check("a draft", read(&cipher.draft) == DONE);
            if cipher.draft[1] == 33 && cipher.key.len() == 41 {
                spare = Some(cipher.clone());
            }
        } else {
            let expected = answers.next().unwrap().parse().unwrap();
            checks.ask(&cipher, words[0], words[1].parse().unwrap(), expected);
        }
    }
    let mut numbers = [0, 1, 2];
    checks.check("three numbers", cipher.call(waderdesk_code, &mut numbers) == DONE && numbers != [0, 1, 2]);
    checks.check("three codes", cipher.call(waderdesk_back, &mut numbers) == DONE && numbers == [0, 1, 2]);
    checks.refused("a number above the top", &cipher, refusal(13, 1));
    checks.key_refused(&mut spare.unwrap());
    checks.damaged(&mut cipher);
    let Checks { asked, failures } = checks;
    let good = failures == 0 && asked > 0;
    println!("client.rs: {}, {asked} answers", if good { "ok" } else { "failed" });
    ExitCode::from(u8::from(!good))
}
