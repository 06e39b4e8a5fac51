// The survey of an image in plain Rust, as one would write it without proofs: the same answer as
// `workbench survey`, to compare speed with.
use std::collections::HashMap;
use std::env;
use std::fs;
use std::process::exit;

#[derive(Clone, Copy, PartialEq, Eq, Hash)]
struct FileId {
    version: u16,
    serial1: u16,
    serial2: u16,
}

#[derive(Clone, Copy)]
struct Label {
    next: u16,
    characters: u16,
    number: u16,
    id: FileId,
}

#[derive(Clone, Copy, PartialEq, Eq)]
enum Verdict {
    Reserved,
    Free,
    Chained,
    Stray,
    Aside,
}

struct Pack {
    words: Vec<u16>,
    n: usize,
}

impl Pack {
    fn open(words: Vec<u16>) -> Option<Pack> {
        let n = *words.first()? as usize;
        let cylinders = n / 24;
        if words.len() != 3 + 265 * n
            || words[1 + 8 * n] as usize != n
            || words[2 + 264 * n] as usize != n
            || n % 24 != 0
            || !(1..=406).contains(&cylinders)
            || words[3 + 264 * n..].iter().any(|mark| *mark > 3)
        {
            return None;
        }
        Some(Pack { words, n })
    }

    fn label(&self, page: usize) -> Option<Label> {
        if self.words[3 + 264 * self.n + page] % 2 == 1 {
            return None;
        }
        let words = &self.words[1 + 8 * page..9 + 8 * page];
        Some(Label {
            next: words[0],
            characters: words[3],
            number: words[4],
            id: FileId { version: words[5], serial1: words[6], serial2: words[7] },
        })
    }

    fn is_free(&self, page: usize) -> bool {
        self.words[1 + 8 * page..9 + 8 * page] == [0, 0, 0, 0, 0, 65535, 65535, 65535]
    }

    fn named(&self, word: u16) -> Option<usize> {
        let (sector, track, head) = (word / 4096, word / 8 % 512, word / 4 % 2);
        if sector <= 11 && (track as usize) < self.n / 24 && word % 4 == 0 {
            Some(sector as usize + 12 * head as usize + 24 * track as usize)
        } else {
            None
        }
    }

    fn is_file(&self, page: usize, label: &Label) -> bool {
        !self.is_free(page) && label.id.serial1 / 16384 % 2 == 0 && label.characters <= 512
    }

    fn follower(&self, label: &Label) -> Option<(usize, Label)> {
        if label.characters != 512 {
            return None;
        }
        let page = self.named(label.next)?;
        if page == 0 {
            return None;
        }
        let next = self.label(page)?;
        let joined = self.is_file(page, &next)
            && next.id == label.id
            && next.number as u32 == label.number as u32 + 1;
        if joined { Some((page, next)) } else { None }
    }

    fn survey(&self) -> Result<Vec<(Verdict, usize)>, (usize, usize)> {
        let mut table = vec![(Verdict::Reserved, 0); self.n];
        let mut leaders = Vec::new();
        let mut first = HashMap::new();
        let mut rivals: Option<(usize, usize)> = None;
        for page in 1..self.n {
            table[page].0 = match self.label(page) {
                None => Verdict::Aside,
                Some(_) if self.is_free(page) => Verdict::Free,
                Some(label) => {
                    if self.is_file(page, &label) && label.number == 0 && label.characters == 512 {
                        if let Some(one) = first.get(&label.id) {
                            if rivals.is_none_or(|(low, _)| *one < low) {
                                rivals = Some((*one, page));
                            }
                        } else {
                            first.insert(label.id, page);
                        }
                        leaders.push((page, label));
                    }
                    Verdict::Stray
                }
            };
        }
        if let Some(pair) = rivals {
            return Err(pair);
        }
        for (leader, label) in leaders {
            table[leader] = (Verdict::Chained, leader);
            let mut at = label;
            while let Some((page, next)) = self.follower(&at) {
                table[page] = (Verdict::Chained, leader);
                at = next;
            }
        }
        Ok(table)
    }
}

fn main() {
    let path = env::args().nth(1).expect("an image");
    let bytes = fs::read(path).expect("a file");
    let words = bytes.chunks_exact(2).map(|b| u16::from_be_bytes([b[0], b[1]])).collect();
    let Some(pack) = Pack::open(words) else {
        eprintln!("refused 6 image 0");
        exit(1);
    };
    match pack.survey() {
        Ok(table) => {
            let kinds = [
                ("reserved", Verdict::Reserved),
                ("free", Verdict::Free),
                ("chained", Verdict::Chained),
                ("stray", Verdict::Stray),
                ("aside", Verdict::Aside),
            ];
            for (name, kind) in kinds {
                println!("{name} {}", table.iter().filter(|(verdict, _)| *verdict == kind).count());
            }
        }
        Err((one, two)) => {
            eprintln!("refused 31 pack {one} {two}");
            exit(1);
        }
    }
}
