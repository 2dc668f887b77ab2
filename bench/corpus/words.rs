//! Lines of a log that are split, trimmed and parsed: fields by `split_once`, counts in a `VecDeque`, and a report by joins.
#[macro_use]
mod program;

use std::collections::VecDeque;
use std::str::FromStr;

const LOG: &str = "
    12:00:01 INFO  server: started port=8080 workers=4
    12:00:02 DEBUG cache: warm entries=1200 hits=0
    12:00:07 WARN  disk: slow latency=310 queue=17
    12:01:15 INFO  http: GET /index.html status=200 bytes=5120
    12:01:16 INFO  http: GET /missing status=404 bytes=0
    12:02:44 ERROR http: POST /order status=500 bytes=77
    broken line without a level
    12:03:59 INFO  server: stopped
";

#[derive(Clone, Copy, PartialEq, PartialOrd)]
enum Level { Debug, Info, Warn, Error }

struct NoLevel;

impl FromStr for Level {
    type Err = NoLevel;

    fn from_str(text: &str) -> Result<Self, NoLevel> {
        Ok(match text {
            "DEBUG" => Level::Debug,
            "INFO" => Level::Info,
            "WARN" => Level::Warn,
            "ERROR" => Level::Error,
            _ => return Err(NoLevel),
        })
    }
}

struct Line<'a> {
    second: u32,
    level: Level,
    source: &'a str,
    fields: Vec<(&'a str, u32)>,
}

fn parse(line: &str) -> Option<Line<'_>> {
    let (head, message) = line.trim().split_once(": ")?;
    let mut words = head.split_whitespace();
    let second = words.next()?.split(':').try_fold(0, |sum, part| part.parse::<u32>().ok().map(|number| sum * 60 + number))?;
    let level = words.next()?.parse().ok()?;
    let pairs = message.split(' ').filter_map(|word| word.split_once('='));
    let fields = pairs.map(|(key, value)| (key, value.parse().unwrap_or(0))).collect();
    Some(Line { second, level, source: words.next()?, fields })
}

fn run(rounds: u32) -> u32 {
    let (mut recent, mut sum) = (VecDeque::<(u32, u32)>::new(), 0u32);
    for round in 0..rounds {
        let mut report: Vec<String> = Vec::new();
        let log = LOG.replace("status", if round % 2 == 0 { "code" } else { "status" });
        for line in log.lines().rev().filter_map(parse).filter(|line| line.level >= Level::Info) {
            let total: u32 = line.fields.iter().map(|(_, value)| value).sum();
            recent.push_back((line.second + round, total));
            while recent.len() > 12 {
                recent.pop_front();
            }
            if line.fields.iter().any(|(key, _)| key.ends_with("s") || key.contains("od")) {
                report.push([line.source, &total.to_string()].join("="));
            }
        }
        recent.rotate_left(3);
        if let (Some((first, _)), Some((_, last))) = (recent.front(), recent.back()) {
            sum = sum.wrapping_mul(31).wrapping_add(first ^ last);
        }
        report.sort_by(|a, b| b.len().cmp(&a.len()).then_with(|| a.cmp(b)));
        sum = report.join(", ").bytes().fold(sum, |sum, byte| sum.rotate_left(5) ^ u32::from(byte));
        sum = recent.iter().fold(sum, |sum, (second, total)| sum ^ second * 3 ^ total);
    }
    sum
}

program!(run(1_000));
