//! The book kept by SQLite: it takes the same calls.

pub use super::binding::version;
use super::binding::{Connection, Parameter, Statement};
use super::statements::{self, Form};
use crate::engine::Orphan;
use crate::model::form::Call;
use crate::model::schema::{Row, Schema, Value};
use crate::model::search::Search;

/// The statements of one table: none where SQLite refuses them for a broken foreign key.
struct Table {
    insert: Option<Statement>,
    update: Option<Statement>,
    delete: Option<Statement>,
    select: Statement,
    orphans: Option<Statement>,
    columns: usize,
    /// The foreign keys whose child it is, rising.
    keys: Vec<usize>,
}

pub struct Database {
    tables: Vec<Table>,
    form: Form,
    /// How many levels are open.
    open: usize,
    connection: Connection,
}

impl Database {
    /// An empty book of numbers.
    pub fn new(schema: &Schema) -> Database {
        Database::with_rows(Form::Numbers, schema, &[])
    }

    /// An empty book of names.
    pub fn of_names(schema: &Schema) -> Database {
        Database::with_rows(Form::Names, schema, &[])
    }

    /// A book with these rows, each with its table and its number, whatever foreign keys say.
    pub fn with_rows(form: Form, schema: &Schema, rows: &[(usize, usize, Row)]) -> Database {
        let connection = Connection::in_memory();
        connection.execute("PRAGMA foreign_keys=OFF");
        let numbers = 0..schema.tables.len();
        for number in numbers.clone() {
            connection.execute(&statements::create_table(form, schema, number));
        }
        for (table, row, values) in rows {
            let insert = connection.prepare(&statements::insert(schema, *table));
            insert.bind(&numbered(form, *row, values));
            assert!(insert.run(), "a row can be entered");
        }
        connection.execute("PRAGMA foreign_keys=ON");
        Database {
            tables: numbers
                .map(|number| Table::new(&connection, schema, number))
                .collect(),
            form,
            open: 0,
            connection,
        }
    }

    /// The rows changed, those by actions included, if SQLite accepts the call; what a rollback
    /// undoes it does not tell.
    pub fn call(&mut self, call: &Call) -> Option<i64> {
        let before = self.connection.total_changes();
        let accepted = self.accepts(call);
        accepted.then(|| self.connection.total_changes() - before)
    }

    /// Whether SQLite refuses to prepare the statement of a call for a broken foreign key.
    pub fn prevents(&self, call: &Call) -> bool {
        match call {
            Call::Insert(table, ..) => self.tables[*table].insert.is_none(),
            Call::Update(table, ..) => self.tables[*table].update.is_none(),
            Call::Delete(table, _) => self.tables[*table].delete.is_none(),
            Call::Search(search) => self.prepare_search(search).is_none(),
            _ => false,
        }
    }

    fn prepare_search(&self, search: &Search) -> Option<Statement> {
        let columns = self.tables[search.table].columns;
        let sql = statements::search(search, columns);
        self.connection.prepare_unless_broken(&sql)
    }

    /// Whether SQLite accepts the call. An update or a deletion of no row, which it lets pass, is
    /// refused here.
    fn accepts(&mut self, call: &Call) -> bool {
        match call {
            Call::Insert(table, row, new) => self.change(|t| &t.insert, *table, *row, new),
            Call::Update(table, row, new) => self.change(|t| &t.update, *table, *row, new),
            Call::Delete(table, row) => self.change(|t| &t.delete, *table, *row, &[]),
            Call::Begin => self.level("BEGIN".into(), 1),
            Call::Savepoint => self.level(format!("SAVEPOINT l{}", self.open + 1), self.open + 1),
            Call::Release(level) => self.level(format!("RELEASE l{}", level), level - 1),
            Call::RollbackTo(level) => self.level(format!("ROLLBACK TO l{}", level), *level),
            Call::Rollback => self.level("ROLLBACK".into(), 0),
            Call::Commit => self.level("COMMIT".into(), 0),
            Call::Search(search) => self.search(search),
        }
    }

    fn change(
        &self,
        which: fn(&Table) -> &Option<Statement>,
        table: usize,
        row: usize,
        new: &[Value],
    ) -> bool {
        which(&self.tables[table])
            .as_ref()
            .map_or(false, |statement| {
                statement.bind(&numbered(self.form, row, new));
                statement.run() && self.connection.changes() == 1
            })
    }

    /// One statement for many rows. That it finds no row is no cause to refuse.
    fn search(&self, search: &Search) -> bool {
        self.prepare_search(search).map_or(false, |statement| {
            let values = statements::search_values(search).into_iter();
            let parameters: Vec<Parameter> = values.map(|v| self.form.parameter(v)).collect();
            statement.bind(&parameters);
            statement.run()
        })
    }

    /// Runs a statement after which this many levels are open.
    fn level(&mut self, sql: String, open: usize) -> bool {
        let accepted = self.connection.prepare(&sql).run();
        if accepted {
            self.open = open;
        }
        accepted
    }

    pub fn in_transaction(&self) -> bool {
        self.open > 0
    }

    /// The rows of a table with their numbers, rising.
    pub fn rows(&self, table: usize) -> Vec<(usize, Row)> {
        let table = &self.tables[table];
        let rows = table
            .select
            .rows(table.columns + 1)
            .expect("rows can be read");
        let split = |row: Vec<Value>| {
            let number = row[0].expect("a row has a number");
            (number as usize, row[1..].to_vec())
        };
        rows.into_iter().map(split).collect()
    }

    /// The orphans of all tables, by foreign key, then by row.
    pub fn orphans(&self) -> Vec<Orphan> {
        let mut orphans: Vec<Orphan> = self.tables.iter().flat_map(Table::orphans).collect();
        orphans.sort();
        orphans
    }
}

impl Table {
    fn new(connection: &Connection, schema: &Schema, number: usize) -> Table {
        let columns = schema.tables[number].columns;
        let keys = 0..schema.keys.len();
        let prepare = |sql: String| connection.prepare_unless_broken(&sql);
        Table {
            insert: prepare(statements::insert(schema, number)),
            update: prepare(statements::update(number, columns)),
            delete: prepare(statements::delete(number)),
            select: connection.prepare(&statements::select(number)),
            orphans: prepare(statements::orphans(number)),
            columns,
            keys: keys.filter(|&k| schema.keys[k].child == number).collect(),
        }
    }

    /// The orphans among its rows, in SQLite's sequence. It lists none where a key is broken.
    fn orphans(&self) -> Vec<Orphan> {
        let orphans = self.orphans.as_ref();
        let found = orphans.map(|list| list.rows(4).expect("orphans can be read"));
        let found = found.unwrap_or_default();
        let orphan = |line: Vec<Value>| {
            let number = |place: usize| line[place].expect("it is a number") as usize;
            Orphan::new(self.keys[number(3)], number(1))
        };
        found.into_iter().map(orphan).collect()
    }
}

/// The parameters of an insert, an update or a deletion: the row number, then the values.
fn numbered(form: Form, row: usize, values: &[Value]) -> Vec<Parameter> {
    let mut all = vec![Parameter::Number(row as i64)];
    all.extend(values.iter().map(|&value| form.parameter(value)));
    all
}
