// Where the lines of a result came from, by the bytes of the two listings alone: the first line of the given one that has the
// same tree. The Rust knows no origins. And listings with origins, which have to be read as those without.
use crate::question::Question;
use crate::random::Random;
use std::collections::HashMap;

const ONE_NAN: &str = "7FF8000000000000";
const INFINITY: u64 = 0x7FF0_0000_0000_0000;

// A number for each tree, the same for those that are the same to the bit.
#[derive(Default)]
struct Trees(HashMap<Vec<String>, usize>);

// A double's digits, NaNs as one.
fn double(digits: &str) -> String {
    let is_nan = u64::from_str_radix(digits, 16).is_ok_and(|bits| bits << 1 > INFINITY << 1);
    if is_nan { ONE_NAN.into() } else { digits.into() }
}

impl Trees {
    // The fields of a line, with the numbers of trees in the place of those of lines.
    fn fields(line: &str, earlier: &[usize]) -> Vec<String> {
        let fields = line.split('\t').enumerate();
        let changed = fields.map(|(k, field)| match (&line[..1], k) {
            ("n", 1..) => double(field),
            ("f" | "u" | "b", 2..) => field.parse::<usize>().map_or_else(|_| field.into(), |i| earlier[i].to_string()),
            _ => field.into(),
        });
        changed.collect()
    }

    // The trees of a listing's node lines; an origin has no part in them.
    fn of(&mut self, listing: &str) -> Vec<usize> {
        let mut trees = vec![];
        for line in listing.lines().filter(|line| !line.starts_with('s')) {
            let line = line.rsplit_once("\t@").map_or(line, |(start, _)| start);
            let (fields, next) = (Self::fields(line, &trees), self.0.len());
            trees.push(*self.0.entry(fields).or_insert(next));
        }
        trees
    }
}

// The origin of each line of a result.
pub fn origins(given: &str, result: &str) -> Vec<Option<usize>> {
    let (mut trees, mut first) = (Trees::default(), HashMap::new());
    for (line, tree) in trees.of(given).into_iter().enumerate() {
        first.entry(tree).or_insert(line);
    }
    trees.of(result).iter().map(|tree| first.get(tree).copied()).collect()
}

// What has to be written with origins of a listing that is not refused, where this is written without them.
pub fn traced(given: &str, result: &[u8]) -> Vec<u8> {
    let text = String::from_utf8_lossy(result);
    let lines = text.lines().zip(origins(given, &text));
    let with = |(line, origin): (&str, Option<usize>)| match origin {
        Some(n) => format!("{line}\t@{n}\n"),
        None => format!("{line}\t@-\n"),
    };
    lines.map(with).collect::<String>().into_bytes()
}

// The listing of a question with origins on some of its node lines, good ones that say anything; of one question in three.
pub fn with_fields(q: &Question) -> Option<String> {
    let mut random = Random::new(q.junk ^ q.listing.len() as u64);
    if !random.once_in(3) {
        return None;
    }
    let every = random.pick(&[1, 1, 2, 5]);
    let mut text = String::new();
    for line in q.listing.split_inclusive('\n') {
        match line.strip_suffix('\n') {
            Some(start) if !line.starts_with('s') && random.once_in(every) => {
                let (any, near) = (random.below(1024), random.below(10));
                let field = random.pick(&[Some(any), Some(near), Some(1023), None]);
                let end = field.map_or("-".into(), |n| n.to_string());
                text += &format!("{start}\t@{end}\n");
            }
            _ => text += line,
        }
    }
    Some(text)
}
