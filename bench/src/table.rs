//! The lines of the table: how they are handed from one process to another, and how they are shown.

/// A time that is not to be above so many times that of the C peer, or of another call of the library.
#[derive(Clone, Copy)]
pub enum Bar {
    Peer(f64),
    Own(f64),
}

/// The time of another call of the library, with its name.
#[derive(Clone)]
pub struct Own {
    pub name: String,
    pub time: f64,
}

/// A line: the box, the figure, and the seconds of each program that has it.
#[derive(Clone)]
pub struct Line {
    pub size: String,
    pub name: String,
    pub library: f64,
    pub second: Option<f64>,
    pub peer: Option<f64>,
    pub own: Option<Own>,
    pub bar: Option<Bar>,
}

/// What stands where a line has nothing, on its way from one process to another.
const NOTHING: &str = "-";

impl Line {
    /// As one process hands it to another.
    pub fn written(&self) -> String {
        let number = |time: Option<f64>| time.map_or(NOTHING.to_string(), |time| format!("{time:e}"));
        let own = self.own.as_ref();
        let bar = match self.bar {
            None => NOTHING.to_string(),
            Some(Bar::Peer(most)) => format!("peer {most}"),
            Some(Bar::Own(most)) => format!("own {most}"),
        };
        let words = [
            self.size.clone(),
            self.name.clone(),
            number(Some(self.library)),
            number(self.second),
            number(self.peer),
            own.map_or(NOTHING.to_string(), |own| own.name.clone()),
            number(own.map(|own| own.time)),
            bar,
        ];
        words.join("\t")
    }

    /// The way back; nothing for a line that is none of the table.
    pub fn read(text: &str) -> Option<Line> {
        let words: Vec<&str> = text.split('\t').collect();
        let [size, name, library, second, peer, own, time, bar] = words[..] else { return None };
        let number = |word: &str| word.parse().ok();
        let bar = match bar.split_once(' ') {
            Some(("peer", most)) => Some(Bar::Peer(number(most)?)),
            Some(("own", most)) => Some(Bar::Own(number(most)?)),
            _ => None,
        };
        Some(Line {
            size: size.to_string(),
            name: name.to_string(),
            library: number(library)?,
            second: number(second),
            peer: number(peer),
            own: number(time).map(|time| Own { name: own.to_string(), time }),
            bar,
        })
    }

    /// Keeps the least time of each program.
    pub fn take_least(&mut self, other: &Line) {
        let least = |one: Option<f64>, other: Option<f64>| one.zip(other).map(|(one, other)| one.min(other));
        self.library = self.library.min(other.library);
        self.second = least(self.second, other.second);
        self.peer = least(self.peer, other.peer);
        if let (Some(own), Some(other)) = (&mut self.own, &other.own) {
            own.time = own.time.min(other.time);
        }
    }

    fn ratio_to(&self, time: Option<f64>) -> String {
        time.map_or(String::new(), |time| format!("{:.2}", self.library / time))
    }

    fn ratio_to_own(&self) -> String {
        self.own.as_ref().map_or(String::new(), |own| format!("{} of {}", self.ratio_to(Some(own.time)), own.name))
    }

    /// The bar, and whether it is kept.
    fn bar(&self) -> String {
        let (most, time, name) = match (self.bar, &self.own) {
            (Some(Bar::Peer(most)), _) => (most, self.peer, "C peer"),
            (Some(Bar::Own(most)), Some(own)) => (most, Some(own.time), "own call"),
            _ => return String::new(),
        };
        let kept = time.is_some_and(|time| self.library <= most * time);
        format!("{most} of {name}: {}", if kept { "kept" } else { "above" })
    }

    /// Which programs gave the same answers, without their times.
    pub fn agreed(&self) -> String {
        let second = self.second.map_or("", |_| ", second program");
        let peer = self.peer.map_or("", |_| ", C peer");
        format!("{:>5}  {:<38} the same: library{second}{peer}", self.size, self.name)
    }

    /// As a reader sees it.
    pub fn shown(&self) -> String {
        let bar = self.bar();
        let notes = [self.ratio_to_own(), if bar.is_empty() { bar } else { format!("bar {bar}") }];
        columns([
            &self.size,
            &self.name,
            &seconds(self.library),
            &self.second.map_or(String::new(), seconds),
            &self.ratio_to(self.second),
            &self.peer.map_or(String::new(), seconds),
            &self.ratio_to(self.peer),
            notes.join("  ").trim(),
        ])
    }

    /// As a line of Markdown.
    pub fn as_markdown(&self) -> String {
        let cells = [
            self.size.clone(),
            self.name.clone(),
            seconds(self.library),
            self.ratio_to(self.second),
            self.ratio_to(self.peer),
            self.ratio_to_own(),
            self.bar(),
        ];
        format!("| {} |", cells.join(" | "))
    }
}

/// The head of the table for a reader.
pub fn head() -> String {
    columns(["box", "figure", "library", "second", "ratio", "C peer", "ratio", "to another call, and bars"])
}

fn columns(words: [&str; 8]) -> String {
    let [size, name, library, second, to_second, peer, to_peer, notes] = words;
    let line = format!("{size:>5}  {name:<34} {library:>11} {second:>11} {to_second:>6} {peer:>11} {to_peer:>6}  {notes}");
    line.trim_end().to_string()
}

/// The head of the table in Markdown.
pub fn markdown_head() -> String {
    "| box | figure | library | to second | to C peer | to another call | bar |\n|---|---|---|---|---|---|---|".to_string()
}

fn seconds(seconds: f64) -> String {
    if seconds < 1e-3 {
        format!("{:.2} us", seconds * 1e6)
    } else {
        format!("{:.3} ms", seconds * 1e3)
    }
}
