//! Where the rows of an accepted plan stand in its file.

/// The tables before those of the generated terms, which have three each.
const HEAD: usize = 7;
const SYM: usize = 2;
const TERM: usize = 6;

/// A table: where it starts in the plan, the number of its names line, and its lines, that one first.
struct Table<'a> {
    start: usize,
    line: usize,
    lines: Vec<&'a str>,
}

/// The tables of a plan that passes the checks 1 to 10: ASCII, each table ended by an empty line.
pub struct Rows<'a> {
    plan: &'a str,
    tables: Vec<Table<'a>>,
}

impl<'a> Rows<'a> {
    pub fn of_accepted(plan: &'a [u8]) -> Rows<'a> {
        let plan = str::from_utf8(plan).expect("an accepted plan is ASCII");
        let (mut tables, mut start, mut line) = (Vec::new(), 0, 1);
        for table in plan.split_inclusive("\n\n") {
            let lines: Vec<&str> = table.trim_end_matches('\n').split('\n').collect();
            let count = lines.len() + 1;
            tables.push(Table { start, line, lines });
            start += table.len();
            line += count;
        }
        Rows { plan, tables }
    }

    /// How many generated terms there are, each with its block.
    pub fn block_count(&self) -> usize {
        (self.tables.len() - HEAD) / 3
    }

    fn start(&self, table: usize) -> usize {
        self.tables.get(table).map_or(self.plan.len(), |table| table.start)
    }

    /// The plan with this generated term alone.
    pub fn plan_of(&self, block: usize) -> Vec<u8> {
        let (first, next) = (self.start(HEAD + 3 * block), self.start(HEAD + 3 * block + 3));
        [&self.plan[..self.start(HEAD)], &self.plan[first..next]].concat().into_bytes()
    }

    /// The number of the line with this row of a block, and the line.
    pub fn row(&self, block: usize, row: usize) -> (usize, &'a str) {
        let table = &self.tables[HEAD + 3 * block + 2];
        (table.line + 1 + row, table.lines[1 + row])
    }

    /// The name of a row of the table of terms.
    pub fn term_name(&self, term: usize) -> &'a str {
        let name = self.tables[TERM].lines[1 + term].split(' ').next();
        let row: usize = name.and_then(|name| name.parse().ok()).expect("a term's name is a row number");
        self.tables[SYM].lines[1 + row]
    }
}
