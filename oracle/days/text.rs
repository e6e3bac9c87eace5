//! The text format: that of ../shared/oracle/shims/main.rs, and lines `trim COLUMN K`, `size L` and `length LIST N`
//! between `prices` and `runs`, which only the port reads.
use super::day::{Change, Day, Run, Van, COLUMNS};
use super::options::fail;
use std::fmt::Write;
use std::str::SplitAsciiWhitespace;

/// The most zeros that `trim` adds.
const LONGEST: i64 = 1 << 20;

pub fn hex(number: f64) -> String {
    format!("{:016x}", number.to_bits())
}

fn put_numbers(out: &mut String, numbers: &[f64]) {
    for number in numbers {
        write!(out, " {:016x}", number.to_bits()).unwrap();
    }
}

/// Adds the day's text.
pub fn put_day(out: &mut String, day: &Day) {
    writeln!(out, "day {}", day.locations()).unwrap();
    for place in 0..day.locations() {
        write!(out, "{} {}", day.flags[place], day.demand[place]).unwrap();
        put_numbers(out, &[day.service[place], day.ready[place], day.due[place], day.penalty[place]]);
        out.push('\n');
    }
    out.push_str("dist");
    put_numbers(out, &day.distances);
    write!(out, "\ntimes {}", i32::from(!day.times.is_empty())).unwrap();
    put_numbers(out, &day.times);
    write!(out, "\nvans {}", day.vans.len()).unwrap();
    for van in &day.vans {
        write!(out, " {} {} {}", van.id, van.depot, van.capacity).unwrap();
        put_numbers(out, &[van.cost_per_distance, van.fixed_cost]);
        write!(out, " {}", van.flags).unwrap();
        put_numbers(out, &[van.max_distance, van.max_duration, van.earliest, van.latest, van.duration]);
    }
    put_lists(out, day);
}

fn put_lists(out: &mut String, day: &Day) {
    write!(out, "\nlists {}", day.lists.len()).unwrap();
    for list in &day.lists {
        write!(out, " {}", list.len()).unwrap();
        for visit in list {
            write!(out, " {visit}").unwrap();
        }
    }
    out.push_str("\nvids");
    for id in &day.van_ids {
        write!(out, " {id}").unwrap();
    }
    out.push_str("\nprices");
    put_numbers(out, &day.prices);
    for change in &day.changes {
        match change {
            Change::Trim(column, entries) => write!(out, "\ntrim {} {entries}", COLUMNS[*column]).unwrap(),
            Change::Size(locations) => write!(out, "\nsize {locations}").unwrap(),
            Change::Length(list, entries) => write!(out, "\nlength {list} {entries}").unwrap(),
        }
    }
    writeln!(out, "\nruns {}", day.runs.len()).unwrap();
    for run in &day.runs {
        writeln!(out, "{} {} {}", run.engine, run.limit, run.list).unwrap();
    }
}

type Read<T> = Result<T, String>;

fn days(text: &str) -> Read<Vec<Day>> {
    let mut reader = Reader::new(text);
    let mut days = Vec::new();
    while let Some(day) = reader.day()? {
        days.push(day);
    }
    Ok(days)
}

/// The days of a file; the program ends where it has none in the format.
pub fn days_of_file(file: &str) -> Vec<Day> {
    let text = std::fs::read_to_string(file).unwrap_or_else(|error| fail(&format!("{file}: {error}")));
    days(&text).unwrap_or_else(|what| fail(&format!("{file}: {what}")))
}

/// Reads days one by one; nothing is made room for before its words are there.
pub struct Reader<'a> {
    words: SplitAsciiWhitespace<'a>,
}

impl<'a> Reader<'a> {
    pub fn new(text: &'a str) -> Self {
        Reader { words: text.split_ascii_whitespace() }
    }

    fn word(&mut self) -> Read<&'a str> {
        self.words.next().ok_or_else(|| "the text ends inside a day".to_string())
    }

    fn key(&mut self, wanted: &str) -> Read<()> {
        let word = self.word()?;
        if word == wanted { Ok(()) } else { Err(format!("'{word}' stands where '{wanted}' is due")) }
    }

    fn whole<T: TryFrom<i128>>(&mut self) -> Read<T> {
        let word = self.word()?;
        let whole: i128 = word.parse().map_err(|_| format!("'{word}' is no whole number"))?;
        T::try_from(whole).map_err(|_| format!("'{word}' is out of its column's range"))
    }

    fn number(&mut self) -> Read<f64> {
        let word = self.word()?;
        u64::from_str_radix(word, 16).map(f64::from_bits).map_err(|_| format!("'{word}' is no f64 in hex"))
    }

    /// A table of `side` times `side` numbers.
    fn table(&mut self, side: u64) -> Read<Vec<f64>> {
        let mut table = Vec::new();
        for _ in 0..side {
            for _ in 0..side {
                table.push(self.number()?);
            }
        }
        Ok(table)
    }

    /// The next day, or none at the end of the text.
    pub fn day(&mut self) -> Read<Option<Day>> {
        match self.words.next() {
            None => Ok(None),
            Some("day") => self.rest_of_day().map(Some),
            Some(word) => Err(format!("'{word}' stands where 'day' is due")),
        }
    }

    fn rest_of_day(&mut self) -> Read<Day> {
        let mut day = Day::default();
        let locations: u64 = self.whole()?;
        for _ in 0..locations {
            day.flags.push(self.whole()?);
            day.demand.push(self.whole()?);
            day.service.push(self.number()?);
            day.ready.push(self.number()?);
            day.due.push(self.number()?);
            day.penalty.push(self.number()?);
        }
        self.key("dist")?;
        day.distances = self.table(locations)?;
        self.key("times")?;
        if self.whole::<u8>()? == 1 {
            day.times = self.table(locations)?;
        }
        self.key("vans")?;
        for _ in 0..self.whole::<u64>()? {
            day.vans.push(self.van()?);
        }
        self.lists(&mut day)?;
        self.runs(&mut day)?;
        Ok(day)
    }

    fn van(&mut self) -> Read<Van> {
        Ok(Van {
            id: self.whole()?,
            depot: self.whole()?,
            capacity: self.whole()?,
            cost_per_distance: self.number()?,
            fixed_cost: self.number()?,
            flags: self.whole()?,
            max_distance: self.number()?,
            max_duration: self.number()?,
            earliest: self.number()?,
            latest: self.number()?,
            duration: self.number()?,
        })
    }

    fn lists(&mut self, day: &mut Day) -> Read<()> {
        self.key("lists")?;
        for _ in 0..self.whole::<u64>()? {
            let mut list = Vec::new();
            for _ in 0..self.whole::<u16>()? {
                list.push(self.whole()?);
            }
            day.lists.push(list);
        }
        self.key("vids")?;
        for _ in 0..day.lists.len() {
            day.van_ids.push(self.whole()?);
        }
        self.key("prices")?;
        for _ in 0..day.lists.len() {
            day.prices.push(self.number()?);
        }
        Ok(())
    }

    /// The changes, then the runs.
    fn runs(&mut self, day: &mut Day) -> Read<()> {
        loop {
            match self.word()? {
                "trim" => day.changes.push(self.trim()?),
                "size" => day.changes.push(Change::Size(self.whole()?)),
                "length" => day.changes.push(Change::Length(self.whole()?, self.whole()?)),
                "runs" => break,
                word => return Err(format!("'{word}' stands where 'runs' is due")),
            }
        }
        for _ in 0..self.whole::<u64>()? {
            let engine = self.word()?.to_string();
            day.runs.push(Run { engine, limit: self.whole()?, list: self.whole()? });
        }
        Ok(())
    }

    fn trim(&mut self) -> Read<Change> {
        let word = self.word()?;
        let column = COLUMNS.iter().position(|name| *name == word).ok_or_else(|| format!("'{word}' is no column"))?;
        let entries: i64 = self.whole()?;
        if entries < -LONGEST {
            return Err(format!("'trim {word} {entries}' adds too many"));
        }
        Ok(Change::Trim(column, entries))
    }
}
