//! The ids of the generated files, and the ids that are asked for.

/// Drawn numbers, the same in every run.
pub struct Draw(u64);

impl Draw {
    pub fn new() -> Draw {
        Draw(88_172_645_463_325_252)
    }

    pub fn next(&mut self) -> u64 {
        self.0 ^= self.0 << 13;
        self.0 ^= self.0 >> 7;
        self.0 ^= self.0 << 17;
        self.0
    }

    fn below(&mut self, n: u64) -> u64 {
        self.next() % n
    }

    fn shuffle(&mut self, ids: &mut [u32]) {
        for i in (1..ids.len()).rev() {
            ids.swap(i, self.below(i as u64 + 1) as usize);
        }
    }
}

const RECORDS: u32 = 1_000_000;

#[derive(Clone, Copy)]
pub enum Kind {
    Dense,
    EveryTenth,
    Gaps,
    Powers,
    Runs,
    Shuffled,
    Random,
    Repeated,
    Descending,
    Clusters,
    Fourth,
    FourthShuffled,
    OneLarge,
}

impl Kind {
    pub fn all() -> [Kind; 13] {
        use Kind::*;
        [
            Dense, EveryTenth, Gaps, Powers, Runs, Shuffled, Random, Repeated, Descending, Clusters, Fourth, FourthShuffled, OneLarge,
        ]
    }

    pub fn name(self) -> &'static str {
        match self {
            Kind::Dense => "dense",
            Kind::EveryTenth => "every tenth",
            Kind::Gaps => "gaps of 1 to 8",
            Kind::Powers => "gaps of powers of two, 1 to 2048",
            Kind::Runs => "dense runs of about 1,000, gaps to 100,000",
            Kind::Shuffled => "dense, shuffled",
            Kind::Random => "drawn from all 2^32",
            Kind::Repeated => "drawn from 250,000: each about four times",
            Kind::Descending => "dense, descending",
            Kind::Clusters => "two clusters, at 1 and at 4294967295",
            Kind::Fourth => "fourth powers, ascending",
            Kind::FourthShuffled => "fourth powers of drawn numbers",
            Kind::OneLarge => "dense, and one 4294967295",
        }
    }

    /// In file order.
    pub fn ids(self) -> Vec<u32> {
        let mut draw = Draw::new();
        let n = RECORDS;
        match self {
            Kind::Dense => (1..=n).collect(),
            Kind::EveryTenth => (1..=n).map(|i| i * 10).collect(),
            Kind::Gaps => rising(|| 1 + draw.below(8)),
            Kind::Powers => rising(|| 1 << draw.below(12)),
            Kind::Runs => rising(|| if draw.below(1000) == 0 { 1 + draw.below(100_000) } else { 1 }),
            Kind::Shuffled => {
                let mut ids: Vec<u32> = (1..=n).collect();
                draw.shuffle(&mut ids);
                ids
            }
            Kind::Random => (0..n).map(|_| draw.next() as u32).collect(),
            Kind::Repeated => (0..n).map(|_| draw.below(u64::from(n / 4)) as u32).collect(),
            Kind::Descending => (1..=n).rev().collect(),
            Kind::Clusters => (1..=n).map(|i| if i <= n / 2 { i } else { u32::MAX - (n - i) }).collect(),
            Kind::Fourth => (0..n).map(|i| i + fourth(f64::from(i) / f64::from(n), 4.2e9)).collect(),
            Kind::FourthShuffled => (0..n).map(|_| fourth(draw.next() as f64 / 2f64.powi(64), 4.2e9)).collect(),
            Kind::OneLarge => (1..n).chain([u32::MAX]).collect(),
        }
    }
}

fn rising(mut gap: impl FnMut() -> u64) -> Vec<u32> {
    let mut id = 0;
    (0..RECORDS)
        .map(|_| {
            id += gap();
            u32::try_from(id).expect("ids of 32 bits")
        })
        .collect()
}

fn fourth(x: f64, top: f64) -> u32 {
    (top * x * x * x * x) as u32
}

/// A file with a record of each id.
pub fn file(ids: &[u32]) -> Vec<u8> {
    let mut bytes = b"ISO-10303-21;\nHEADER;\nFILE_NAME('a');\nENDSEC;\nDATA;\n".to_vec();
    for id in ids {
        bytes.extend(format!("#{id}=A(1);\n").bytes());
    }
    bytes.extend(b"ENDSEC;\nEND-ISO-10303-21;\n");
    bytes
}

/// So many ids of records, drawn.
pub fn present(ids: &[u32], count: usize, draw: &mut Draw) -> Vec<u32> {
    (0..count).map(|_| ids[draw.below(ids.len() as u64) as usize]).collect()
}

/// So many ids that no record has, drawn from 0 to twice the greatest.
pub fn absent(ids: &[u32], count: usize, draw: &mut Draw) -> Vec<u32> {
    let mut sorted = ids.to_vec();
    sorted.sort_unstable();
    let top = u64::from(*sorted.last().expect("an id"));
    let end = (top * 2 + 1).min(u64::from(u32::MAX)) + 1;
    let mut asked = Vec::with_capacity(count);
    while asked.len() < count {
        let id = draw.below(end) as u32;
        if sorted.binary_search(&id).is_err() {
            asked.push(id);
        }
    }
    asked
}

/// The numbers after a `#` that begins no line, in the order of the file: its references, as a reader meets them.
pub fn references(file: &[u8]) -> Vec<u32> {
    let mut met = Vec::new();
    for i in 1..file.len() {
        let digits = file[i..].iter().take_while(|b| b.is_ascii_digit()).count();
        if file[i - 1] == b'#' && digits > 0 && i > 1 && file[i - 2] != b'\n' {
            met.extend(std::str::from_utf8(&file[i..i + digits]).ok().and_then(|t| t.parse::<u32>().ok()));
        }
    }
    met
}
