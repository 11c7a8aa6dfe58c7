//! A table of cells, with the visits to each.

use crate::answer;

pub const ANSWERS: [&str; answer::COUNT] = ["0", "1", "2", "3", "4", "5", "6", "7", "8", "9"];

/// What a table prints in a cell.
enum Show {
    /// The answers seen.
    Answers,
    /// The number of visits.
    Visits,
}

pub struct Table {
    title: &'static str,
    rows: Vec<&'static str>,
    columns: Vec<&'static str>,
    show: Show,
    /// Visits by answer, for each row and column.
    cells: Vec<Vec<[u64; answer::COUNT]>>,
    unreachable: Vec<Unreachable>,
}

pub struct Unreachable {
    pub rows: &'static [&'static str],
    pub columns: &'static [&'static str],
    pub reason: &'static str,
}

impl Table {
    pub fn new(
        title: &'static str,
        rows: impl IntoIterator<Item = &'static str>,
        columns: impl IntoIterator<Item = &'static str>,
    ) -> Table {
        let rows: Vec<_> = rows.into_iter().collect();
        let columns: Vec<_> = columns.into_iter().collect();
        let cells = vec![vec![[0; answer::COUNT]; columns.len()]; rows.len()];
        Table { title, rows, columns, show: Show::Answers, cells, unreachable: Vec::new() }
    }

    pub fn showing_visits(self) -> Table {
        Table { show: Show::Visits, ..self }
    }

    pub fn without(self, unreachable: impl IntoIterator<Item = Unreachable>) -> Table {
        Table { unreachable: unreachable.into_iter().collect(), ..self }
    }

    pub fn row(&self, row: &str) -> usize {
        self.rows.iter().position(|&name| name == row).expect("a row's name")
    }

    pub fn visit(&mut self, row: &str, column: &str, answer: u8) {
        let column = self.columns.iter().position(|&name| name == column).expect("a column's name");
        self.count(self.row(row), column, answer);
    }

    pub fn count(&mut self, row: usize, column: usize, answer: u8) {
        self.cells[row][column][usize::from(answer)] += 1;
    }

    fn visits(&self, row: usize, column: usize) -> u64 {
        self.cells[row][column].iter().sum()
    }

    /// All visits.
    pub fn total(&self) -> u64 {
        self.places().map(|(row, column)| self.visits(row, column)).sum()
    }

    fn is_unreachable(&self, row: usize, column: usize) -> bool {
        self.unreachable.iter().any(|list| {
            list.rows.contains(&self.rows[row]) && list.columns.contains(&self.columns[column])
        })
    }

    fn places(&self) -> impl Iterator<Item = (usize, usize)> + '_ {
        (0..self.rows.len())
            .flat_map(|row| (0..self.columns.len()).map(move |column| (row, column)))
    }

    pub fn reachable(&self) -> impl Iterator<Item = (usize, usize)> + '_ {
        self.places().filter(|&(row, column)| !self.is_unreachable(row, column))
    }

    pub fn gaps(&self) -> Vec<String> {
        self.reachable()
            .filter(|&(row, column)| self.visits(row, column) == 0)
            .map(|(row, column)| self.describe("never visited", row, column))
            .collect()
    }

    pub fn surprises(&self) -> Vec<String> {
        self.places()
            .filter(|&(row, column)| {
                self.is_unreachable(row, column) && self.visits(row, column) > 0
            })
            .map(|(row, column)| self.describe("listed as unreachable, but visited", row, column))
            .collect()
    }

    fn describe(&self, what: &str, row: usize, column: usize) -> String {
        format!("{what}: {}: {} / {}", self.title, self.rows[row], self.columns[column])
    }

    fn text(&self, row: usize, column: usize) -> String {
        let cell = &self.cells[row][column];
        match self.show {
            _ if self.is_unreachable(row, column) => "-".into(),
            Show::Visits => self.visits(row, column).to_string(),
            Show::Answers => {
                (0..answer::COUNT).filter(|&number| cell[number] > 0).map(|n| ANSWERS[n]).collect()
            }
        }
    }

    pub fn print(&self) {
        let width = match self.show {
            Show::Visits => 8,
            Show::Answers => self.columns.iter().map(|name| name.len()).max().unwrap_or(0),
        };
        let name_width = self.rows.iter().map(|name| name.len()).max().unwrap_or(0);
        println!("{}", self.title);
        print!("  {:name_width$}", "");
        for column in &self.columns {
            print!(" {column:>width$}");
        }
        println!();
        for (row, name) in self.rows.iter().enumerate() {
            print!("  {name:name_width$}");
            for column in 0..self.columns.len() {
                print!(" {:>width$}", self.text(row, column));
            }
            println!();
        }
        let fewest = self.reachable().map(|(row, column)| self.visits(row, column)).min();
        println!("  fewest visits to a reachable cell: {}", fewest.unwrap_or(0));
        for list in &self.unreachable {
            println!(
                "  unreachable: {} / {}: {}",
                list.rows.join(", "),
                list.columns.join(", "),
                list.reason
            );
        }
        println!();
    }
}
